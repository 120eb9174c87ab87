// Which frames restart the command-loss timer.
// The loader never sees this file.

/// Kept by the ground station.
record Timer {
  restart: frames, // an absent field means: any byte
  expires: 72.5,   /* hours */ deaf: false,
  // the last field has no comma
  spare: null // and a comment
}

/* A block of
   two lines. */
fn kept(orbits: int, /* of the beacon */ log: string) -> result[int] { // opens
  let table = [ // wide enough to break
    orbits, 15, // the beacon log
    limits.power, limits.command // the other logs
  ];
  if (orbits > 0) { /* one line */ return ok(table[0]); }
  else { return err(log); } // no "quotes' here
  return ok(/* nothing */);

  // before the brace
}
// The end of the file.
