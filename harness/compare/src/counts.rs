//! How many cases of each sort were compared.
#[derive(Clone, Copy)]
pub enum Sort {
    Lists,
    Layouts,
    Sources,
    Readings,
    Sheets,
    Spaces,
    Text,
    Refusal1,
    Refusal2,
    Refusal3,
    Refusal4,
    Refusal5,
    Refusal6,
    Refusal7,
    Refusal8,
    Refusal9,
    Refusal10,
    Refusal11,
    Commas,
    Plain,
    ReadBack,
    SeenAgain,
    Bindings,
    NotRun,
}

const SORTS: [&str; 24] = [
    "lists",
    "layouts",
    "layouts with a source",
    "readings",
    "sheets",
    "spaces",
    "texts",
    "refusal 1",
    "refusal 2",
    "refusal 3",
    "refusal 4",
    "refusal 5",
    "refusal 6",
    "refusal 7",
    "refusal 8",
    "refusal 9",
    "refusal 10",
    "refusal 11",
    "inserted commas",
    "plain layouts",
    "plain layouts read back",
    "texts of plain layouts seen before",
    "calls of the Rust crate",
    "cases not run",
];

impl Sort {
    /// Of a layout's text, or of a refusal.
    pub fn of_refusal(number: u32) -> Sort {
        use Sort::*;
        let refusals =
            [Text, Refusal1, Refusal2, Refusal3, Refusal4, Refusal5, Refusal6, Refusal7, Refusal8, Refusal9, Refusal10];
        *refusals.get(number as usize).unwrap_or(&Refusal11)
    }
}

#[derive(Clone, Copy, Default)]
pub struct Counts([u64; SORTS.len()]);

impl Counts {
    pub fn add(&mut self, sort: Sort) {
        self.add_many(sort, 1);
    }

    pub fn add_many(&mut self, sort: Sort, n: u64) {
        self.0[sort as usize] += n;
    }

    /// A call of another door than the layout's, and its refusal.
    pub fn add_call(&mut self, sort: Sort, refusal: u32) {
        self.add(sort);
        if refusal != 0 {
            self.add(Sort::of_refusal(refusal));
        }
    }

    pub fn of(&self, sort: Sort) -> u64 {
        self.0[sort as usize]
    }

    pub fn join(&mut self, other: &Counts) {
        for (sum, n) in self.0.iter_mut().zip(other.0) {
            *sum += n;
        }
    }
}

impl std::fmt::Display for Counts {
    fn fmt(&self, f: &mut std::fmt::Formatter) -> std::fmt::Result {
        let parts: Vec<String> =
            SORTS.iter().zip(self.0).filter(|&(_, n)| n > 0).map(|(name, n)| format!("{n} {name}")).collect();
        write!(f, "{}", parts.join(", "))
    }
}
