// Holds a program's whole output to what a definition prints, each input in a run of its own.
// It knows bytes only: what is to be printed of which input, its callers say.

use crate::run::{equal_front, Ending, Program};

pub struct Printing {
    pub name: &'static str,
    /// The whole output of the program, given its whole input.
    pub printed: fn(&[u8]) -> Vec<u8>,
    /// What is printed is never longer; of a program that goes on no more is read.
    pub most: usize,
}

impl Printing {
    /// None where the program printed all that it had to, and no more, and ended well.
    fn report(&self, program: &Program, input: &[u8]) -> Option<String> {
        let expected = (self.printed)(input);
        let outcome = program.converse(
            |pipe| pipe.write_all(input),
            |output| output.rest(self.most).map_err(|lack| lack.bytes_got),
        );
        let trouble = match outcome {
            Ok((Ok(printed), Ending::Status(0))) if printed == expected => return None,
            Ok((Ok(printed), ending)) => format!(
                "it printed {}, equal up to byte {}, and the end was {ending:?}",
                printed.len(),
                equal_front(&expected, &printed)
            ),
            Ok((Err(bytes), _)) => format!("it printed {bytes} and fell silent"),
            Err(trouble) => trouble,
        };
        Some(format!(
            "{}: of {} bytes {:02X?}.. it was to print {} bytes; {trouble}",
            self.name,
            input.len(),
            &input[..input.len().min(16)],
            expected.len()
        ))
    }

    /// How many inputs were printed of as they must be, or what was wrong.
    pub fn check(&self, program: &Program, inputs: &[Vec<u8>]) -> Result<usize, Vec<String>> {
        let reports: Vec<String> = inputs
            .iter()
            .filter_map(|input| self.report(program, input))
            .collect();
        if reports.is_empty() {
            Ok(inputs.len())
        } else {
            Err(reports)
        }
    }
}

/// What both programs print of a refusal: the number alone.
pub fn refused(number: u32) -> Vec<u8> {
    format!("refused {number}\n").into_bytes()
}
