//! The static library under test, in a process of its own that `serve.c` describes.

use std::io::{BufReader, BufWriter, Read, Write};
use std::process::{Child, ChildStdin, ChildStdout, Command, Stdio};

/// A refusal number, 0 for a grant, and the values.
pub type Answer = (u32, Vec<u64>);

pub struct Library {
    child: Child,
    to: BufWriter<ChildStdin>,
    from: BufReader<ChildStdout>,
}

impl Library {
    /// Starts the serving program: its name and arguments.
    pub fn start(command: &[String]) -> Library {
        let (name, arguments) = command.split_first().expect("a program that serves the library");
        let mut child = Command::new(name).args(arguments).stdin(Stdio::piped()).stdout(Stdio::piped()).spawn().expect("the serving program starts");
        let to = BufWriter::new(child.stdin.take().expect("its input"));
        let from = BufReader::new(child.stdout.take().expect("its output"));
        Library { child, to, from }
    }

    fn give(&mut self, words: &[u32]) {
        let bytes: Vec<u8> = words.iter().flat_map(|w| w.to_le_bytes()).collect();
        self.to.write_all(&bytes).expect("the serving program reads");
    }

    fn take(&mut self, words: &mut [u32]) {
        let mut bytes = vec![0; 4 * words.len()];
        if let Err(e) = self.from.read_exact(&mut bytes) {
            println!("the library's program ended within a call: {e}, {:?}", self.child.wait());
            std::process::exit(1);
        }
        for (w, b) in words.iter_mut().zip(bytes.chunks_exact(4)) {
            *w = u32::from_le_bytes([b[0], b[1], b[2], b[3]]);
        }
    }

    /// Makes a call. Arena and list are then as it left them.
    pub fn call(&mut self, number: u32, arguments: [u32; 3], ws: &mut [u32], roots: &[u32], list: &mut [u32]) -> Answer {
        let [a, b, c] = arguments;
        self.give(&[number, a, b, c, ws.len() as u32, roots.len() as u32, list.len() as u32]);
        self.give(ws);
        self.give(roots);
        self.give(list);
        self.to.flush().expect("the serving program reads");
        let mut reply = [0; 11];
        self.take(&mut reply);
        self.take(ws);
        self.take(list);
        let [refusal, count, untouched, values @ ..] = reply;
        if untouched != 1 {
            println!("call {number} {arguments:?} wrote beside what it was lent");
            std::process::exit(1);
        }
        let values = values.chunks_exact(2).map(|v| u64::from(v[0]) | u64::from(v[1]) << 32);
        (refusal, values.take(count as usize).collect())
    }
}
