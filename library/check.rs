//! The report for the file on standard input, as the program `gatesorrel` prints it.
use std::io::{Read, Write};

mod gatesorrel {
    /// What a check answers.
    pub enum Answer {
        Report { length: usize },
        Refused { number: u8, line: usize },
    }

    unsafe extern "C" {
        fn gatesorrel_check(
            file: *const u8,
            file_length: usize,
            scratch: *mut u16,
            scratch_length: usize,
            report: *mut u8,
            report_length: usize,
            line: *mut usize,
            length: *mut usize,
        ) -> u8;
    }

    /// Checks a file. Any lengths may be lent: what is too short or too long is refused.
    pub fn check(file: &[u8], scratch: &mut [u16], report: &mut [u8]) -> Answer {
        let (mut line, mut length) = (0, 0);
        // Slices are aligned, not null, as long as they say, and the exclusive ones overlap nothing.
        let number = unsafe {
            gatesorrel_check(
                file.as_ptr(),
                file.len(),
                scratch.as_mut_ptr(),
                scratch.len(),
                report.as_mut_ptr(),
                report.len(),
                &mut line,
                &mut length,
            )
        };
        match number {
            0 => Answer::Report { length },
            _ => Answer::Refused { number, line },
        }
    }
}

fn main() -> std::io::Result<()> {
    let mut file = Vec::new();
    std::io::stdin().read_to_end(&mut file)?;
    let mut scratch = vec![0; 16384];
    let mut report = vec![0; 32768];
    let mut out = std::io::stdout();
    match gatesorrel::check(&file, &mut scratch, &mut report) {
        gatesorrel::Answer::Report { length } => out.write_all(&report[..length]),
        gatesorrel::Answer::Refused { number, line } => writeln!(out, "refused {number} line {line}"),
    }
}
