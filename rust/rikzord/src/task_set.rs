//! The task set file: judged, read, and what can be asked of it alone.

use crate::lent;
use crate::refusal::Refusal;
use crate::MOST_CORES;

/// What the controller carries that loads a file (document 02, 2.10).
#[derive(Clone, Copy, PartialEq, Eq, Debug)]
pub enum Profile {
    /// All of document 01.
    Full,
    /// The smallest controller: no 64-bit numbers, no floats, a data size of at most 1,024.
    Small,
}

/// Judges a task set file.
pub fn check(file: &[u8], profile: Profile) -> Result<(), Refusal> {
    Refusal::judged(match profile {
        Profile::Full => lent::check_file(file),
        Profile::Small => lent::check_file_small(file),
    })
}

/// The two forms of a task set file (document 02, 2.12).
#[derive(Clone, Copy, PartialEq, Eq, Debug)]
pub enum Form {
    /// Mark 4D 43 53 31 hex.
    Old,
    /// Mark 4D 43 53 32 hex: start values follow the code.
    New,
}

/// What a file says of one core.
#[derive(Clone, PartialEq, Eq, Debug)]
pub struct Task {
    /// Bytes of its data.
    pub data_size: u16,
    /// Bytes of its inputs, the first of its data.
    pub input_size: u16,
    /// The instruction limit of a cycle.
    pub limit: u16,
    /// Its instructions, end to end.
    pub code: Vec<u8>,
    /// Data places and the bytes that the fresh state holds there, places rising.
    pub start_values: Vec<(u16, u8)>,
}

/// A core that a variable names, and the variable's place in its data.
#[derive(Clone, Copy, PartialEq, Eq, Debug)]
pub struct Local {
    /// The core.
    pub core: u8,
    /// Where the variable begins in its data.
    pub place: u16,
}

/// A variable that cores trade through shared memory.
#[derive(Clone, PartialEq, Eq, Debug)]
pub struct Variable {
    /// Its place in shared memory.
    pub shared: u16,
    /// Its bytes: 1, 2, 4 or 8.
    pub width: u8,
    /// The one core that writes it.
    pub writer: Local,
    /// The cores that read it, by number.
    pub readers: Vec<Local>,
}

/// A task set file that the library accepted.
#[derive(Clone, PartialEq, Eq, Debug)]
pub struct TaskSet {
    file: Vec<u8>,
    form: Form,
    tasks: Vec<Task>,
    variables: Vec<Variable>,
}

/// Takes items off the front of an accepted file, in which each is there.
struct Sections<'f>(&'f [u8]);

impl<'f> Sections<'f> {
    fn bytes(&mut self, count: usize) -> &'f [u8] {
        let (item, rest) = self.0.split_at(count);
        self.0 = rest;
        item
    }

    fn byte(&mut self) -> u8 {
        self.bytes(1)[0]
    }

    fn word(&mut self) -> u16 {
        let bytes = self.bytes(2);
        u16::from_le_bytes([bytes[0], bytes[1]])
    }

    fn variable(&mut self) -> Variable {
        let (shared, width, attribute) = (self.word(), self.byte(), self.byte());
        let places: [u16; MOST_CORES] = std::array::from_fn(|_| self.word());
        let named = |half: u8| (0..MOST_CORES).filter(move |core| half >> core & 1 == 1);
        let local = |core: usize| Local { core: core as u8, place: places[core] };
        let writer = named(attribute & 15).map(local).next().expect("a variable has one writer");
        Variable { shared, width, writer, readers: named(attribute >> 4).map(local).collect() }
    }
}

impl TaskSet {
    /// Loads a file under the full profile.
    pub fn load(file: &[u8]) -> Result<TaskSet, Refusal> {
        TaskSet::load_for(Profile::Full, file)
    }

    /// Loads a file under a profile. One that is accepted as small runs step for step as it does otherwise.
    pub fn load_for(profile: Profile, file: &[u8]) -> Result<TaskSet, Refusal> {
        check(file, profile)?;
        let mut sections = Sections(file);
        let form = if sections.bytes(4) == b"MCS1" { Form::Old } else { Form::New };
        let cores = sections.byte() as usize;
        let mut tasks: Vec<Task> = (0..cores)
            .map(|_| Task {
                data_size: sections.word(),
                input_size: sections.word(),
                limit: sections.word(),
                code: Vec::new(),
                start_values: Vec::new(),
            })
            .collect();
        let variables = (0..sections.byte()).map(|_| sections.variable()).collect();
        for task in &mut tasks {
            let length = sections.word() as usize;
            task.code = sections.bytes(length).to_vec();
        }
        if form == Form::New {
            for task in &mut tasks {
                task.start_values = (0..sections.word()).map(|_| (sections.word(), sections.byte())).collect();
            }
        }
        Ok(TaskSet { file: file.to_vec(), form, tasks, variables })
    }

    /// The file itself.
    pub fn file(&self) -> &[u8] {
        &self.file
    }

    /// Its form, by its mark.
    pub fn form(&self) -> Form {
        self.form
    }

    /// What the file says of each core.
    pub fn tasks(&self) -> &[Task] {
        &self.tasks
    }

    /// The number of cores, n.
    pub fn cores(&self) -> u8 {
        self.tasks.len() as u8
    }

    /// The variables, in file order.
    pub fn variables(&self) -> &[Variable] {
        &self.variables
    }

    /// The length of the data buffer: the sum of the data sizes.
    pub fn data_total(&self) -> usize {
        self.tasks.iter().map(|task| task.data_size as usize).sum()
    }

    /// What the task will take, before loading it (document 02, 2.7).
    ///
    /// Refused, for each core in turn: a target not above its own instruction (25); a count above 65,535 (26).
    pub fn takes(&self) -> Result<Takes, Refusal> {
        let mut lengths = [0; 3];
        let (mut counts, mut depths) = (vec![0; self.tasks.len()], vec![0; self.tasks.len()]);
        Refusal::judged(lent::takes(&self.file, &mut lengths, &mut counts, &mut depths))?;
        let [data_buffer, shared_memory, core_table] = lengths;
        let cores = counts.into_iter().zip(depths).map(|(count, depth)| Longest { count, depth }).collect();
        Ok(Takes { data_buffer, shared_memory, core_table, cores })
    }

    /// The lines between its cores (document 02, 2.9).
    pub fn lines(&self) -> Lines {
        let mut lines = 0;
        match (lent::check_cycles(&self.file, &mut lines), lines) {
            (0, 0) => Lines::Free,
            (0, 1) => Lines::EachOther,
            (0, 2) => Lines::Ring,
            (number, lines) => panic!("of an accepted file the library answers {number} and {lines}"),
        }
    }
}

/// What a task will take, from its file alone.
#[derive(Clone, PartialEq, Eq, Debug)]
pub struct Takes {
    /// Bytes of the data buffer.
    pub data_buffer: usize,
    /// Bytes of shared memory.
    pub shared_memory: usize,
    /// Records of the core table.
    pub core_table: usize,
    /// Of each core.
    pub cores: Vec<Longest>,
}

/// The greatest instruction count and call depth of a core over every choice at its conditional jumps, faults and the depth limit left aside. An
/// instruction limit at or above the count is never hit, and a depth of at most 16 never raises flag bit 5.
#[derive(Clone, Copy, PartialEq, Eq, Debug)]
pub struct Longest {
    /// Instructions of the longest cycle.
    pub count: u32,
    /// Calls that are open at once.
    pub depth: u32,
}

/// A line stands between two cores where one reads a variable that the other writes.
#[derive(Clone, Copy, PartialEq, Eq, Debug)]
pub enum Lines {
    /// No two cores read each other, and the lines form no ring: a run that ends between cycles ends as an order of whole cycles would.
    Free,
    /// Two cores read each other.
    EachOther,
    /// No two cores read each other, and the lines form a ring.
    Ring,
}

/// An old file in the new form, with a count of 0 for each core (document 02, 2.12). Refused is a file that is new already (2), and what the check refuses.
pub fn to_new(file: &[u8]) -> Result<Vec<u8>, Refusal> {
    converted(lent::to_new, file, file.len() + 2 * MOST_CORES)
}

/// A new file in the old form. Refused is a file that is old already (2), what the check refuses, and a file with start values (32).
pub fn to_old(file: &[u8]) -> Result<Vec<u8>, Refusal> {
    converted(lent::to_old, file, file.len())
}

fn converted(convert: fn(&[u8], &mut [u8], &mut usize) -> u8, file: &[u8], room: usize) -> Result<Vec<u8>, Refusal> {
    let (mut out, mut length) = (vec![0; room], 0);
    Refusal::judged(convert(file, &mut out, &mut length))?;
    out.truncate(length);
    Ok(out)
}
