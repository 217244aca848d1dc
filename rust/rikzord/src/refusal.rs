//! The refusals of documents 01 and 02.

use std::fmt;

/// The table of refusals: number, name, and what is wrong.
macro_rules! refusals {
    ($($number:literal $name:ident: $words:literal,)*) => {
        /// Why a call was turned away. A refused call changes nothing.
        ///
        /// Its number is that of document 01, or of document 02 from 24 on; its words are theirs.
        ///
        /// ```
        /// use rikzord::{check, Profile, Refusal};
        ///
        /// let refusal = check(&[0x4D, 0x43, 0x53], Profile::Full).unwrap_err();
        /// assert_eq!(refusal, Refusal::FileCut);
        /// assert_eq!(refusal.number(), 1);
        /// assert!(refusal.is_cut_in_transit());
        /// ```
        #[derive(Clone, Copy, PartialEq, Eq, PartialOrd, Ord, Hash, Debug)]
        #[repr(u8)]
        pub enum Refusal {
            $(#[doc = concat!($number, ": ", $words, ".")] $name = $number,)*
        }

        impl Refusal {
            /// Every refusal, by number.
            pub const ALL: &[Refusal] = &[$(Refusal::$name),*];

            /// What is wrong, in the documents' words.
            pub fn words(self) -> &'static str {
                match self {
                    $(Refusal::$name => $words,)*
                }
            }
        }
    };
}

refusals! {
    1 FileCut: "the file is cut: it ends before its last section does",
    2 Mark: "the mark is not that of a task set file: 4D 43 53 31 hex, or 4D 43 53 32 hex in the new form",
    3 CoreRecord: "the core count is not 1 to 4, or a core's data size, input size or instruction limit is outside its range",
    4 VariableRecord: "the variable count is above 64, or a variable's width, attribute byte or one of its places breaks a rule",
    5 Overlap: "two variables share a byte, in shared memory or in the data of a core that both name",
    6 Code: "a code length, code byte, type, MCD length, element size or count is outside its list, or an instruction is cut",
    7 Target: "a target starts no instruction, or the last instruction is neither RETURN nor JMP",
    20 NoSuchCore: "a core is named that the task set does not have",
    21 LentMemory: "lent memory has the wrong size, or an output is too short",
    22 Trace: "the trace is cut or too long",
    23 UnfitState: "the state is unfit",
    24 BytesLeftOver: "bytes follow the file's last section",
    25 TargetNotAbove: "a jump or call leads to a place not above its own instruction",
    26 CountTooGreat: "a cycle may have more than 65,535 instructions",
    27 WideType: "an instruction names LINT, LWORD, REAL or LREAL, which the small profile does not carry",
    28 Span: "the span is not 1 to 600,000 milliseconds",
    29 AnswerPlaces: "there are fewer answer places than records",
    30 RunOfRecords: "a time is below the one before, or the run is cut inside a record",
    31 StartPlace: "a start place is beyond the core's data, or not above the one before",
    32 StartValues: "the file has start values, which the old form cannot hold",
    33 ListNotProduced: "no order of steps produces the order list",
    34 Window: "there is no such core, or the stretch leaves its code or data",
}

impl Refusal {
    /// The documents' number.
    pub fn number(self) -> u8 {
        self as u8
    }

    /// The refusal with this number, if there is one.
    pub fn from_number(number: u8) -> Option<Refusal> {
        Refusal::ALL.iter().copied().find(|refusal| refusal.number() == number)
    }

    /// Whether the file was cut in transit, so that sending it again makes sense (document 02, 2.2). Of every other refusal the file itself has to change.
    pub fn is_cut_in_transit(self) -> bool {
        self == Refusal::FileCut
    }

    /// A call's number as a result; 0 is none.
    pub(crate) fn judged(number: u8) -> Result<(), Refusal> {
        match number {
            0 => Ok(()),
            _ => Err(Refusal::from_number(number).unwrap_or_else(|| panic!("the library answers {number}, which is no refusal"))),
        }
    }
}

impl fmt::Display for Refusal {
    fn fmt(&self, f: &mut fmt::Formatter) -> fmt::Result {
        write!(f, "refused, {}: {}", self.number(), self.words())
    }
}

impl std::error::Error for Refusal {}
