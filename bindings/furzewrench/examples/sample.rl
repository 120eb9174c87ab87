record Logs {
  beacon: orbits(15), power: orbits(45),
  command: orbits(200),

  receiver: until("command-loss timer \"A\" is next tested")
}

record Timer { restart: frames["command"], expires: 72.5, deaf: false, spare: null }

fn kept(log: string, orbits: int, spare: arr[int], last: bool) -> result[int] {
  if (orbits > 0 && !last) { return ok(orbits); } else { return err('n' + log); }


  let table = [1, 2, 3, -4, spare[0], max(orbits, 15), min(orbits, 200), 65535];
  for i in 0..3 { show(table[i] - 1, i % 2 == 0); }
  let wide = longest_name_of_all(table.first, table.last, log::level(orbits), ok(-orbits)) ;
  return ok(wide);
}
