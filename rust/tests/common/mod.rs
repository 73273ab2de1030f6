//! What the tests share.
#![allow(dead_code)]
use cmwq::{check, Verdict};
use std::io::{self, Write};
use std::panic::panic_any;
use std::path::PathBuf;
use std::sync::atomic::{AtomicUsize, Ordering::SeqCst};
use std::sync::{Arc, Mutex};
use std::time::Duration;

/// A history that can be judged afterwards.
#[derive(Clone, Default)]
pub struct Text(pub Arc<Mutex<Vec<u8>>>);

impl Write for Text {
    fn write(&mut self, text: &[u8]) -> io::Result<usize> {
        self.0.lock().unwrap().extend_from_slice(text);
        Ok(text.len())
    }

    fn flush(&mut self) -> io::Result<()> {
        Ok(())
    }
}

impl Text {
    /// How many entries the history has, which is legal.
    pub fn judge(&self) -> u64 {
        let text = self.0.lock().unwrap();
        match check(&text).unwrap() {
            Verdict::Legal { entries } => entries,
            Verdict::Illegal { line } => panic!("{line}\n{}", String::from_utf8_lossy(&text[..text.len().min(5000)])),
        }
    }

    /// How many entries have a reply that begins so.
    pub fn count(&self, word: &str) -> u64 {
        let text = self.0.lock().unwrap();
        let text = std::str::from_utf8(&text).unwrap();
        text.lines().filter(|line| line.split_once(" = ").is_some_and(|(_, reply)| reply.starts_with(word))).count()
            as u64
    }

    /// Waits until all of it is written.
    pub fn wait_for_end(&self) {
        while !self.0.lock().unwrap().rsplitn(3, |byte| *byte == b'\n').nth(1).is_some_and(|it| it.starts_with(b"end "))
        {
            std::thread::sleep(Duration::from_millis(1));
        }
    }
}

/// What panics when it is dropped, with one that does so less often.
pub struct Bomb(pub u32);

impl Drop for Bomb {
    fn drop(&mut self) {
        if self.0 > 0 {
            panic_any(Bomb(self.0 - 1));
        }
    }
}

/// Ends the process if `steps` stays the same for so many seconds.
pub fn watch(steps: Arc<AtomicUsize>, seconds: u32) {
    std::thread::spawn(move || {
        let (mut last, mut same) = (usize::MAX, 0);
        while Arc::strong_count(&steps) > 1 {
            std::thread::sleep(Duration::from_millis(100));
            let now = steps.load(SeqCst);
            same = if now == last { same + 1 } else { 0 };
            last = now;
            if same == 10 * seconds {
                eprintln!("step {now} hangs");
                std::process::abort();
            }
        }
    });
}

/// Ends the process if a test takes longer.
pub fn watchdog() -> Arc<AtomicUsize> {
    let steps = Arc::new(AtomicUsize::new(0));
    watch(steps.clone(), number("CMWQ_SECONDS", 60) as u32);
    steps
}

pub struct Random(pub u64);

impl Random {
    pub fn new(seed: u64) -> Random {
        let mut random = Random(seed.wrapping_mul(0x9e37_79b9_7f4a_7c15) | 1);
        random.next();
        random.next();
        random
    }

    pub fn next(&mut self) -> u64 {
        self.0 ^= self.0 << 13;
        self.0 ^= self.0 >> 7;
        self.0 ^= self.0 << 17;
        self.0.wrapping_mul(0x2545_f491_4f6c_dd1d) >> 11
    }

    pub fn below(&mut self, most: usize) -> usize {
        (self.next() % most as u64) as usize
    }
}

/// The number that a variable of the environment has.
pub fn number(name: &str, otherwise: u64) -> u64 {
    std::env::var(name).ok().and_then(|word| word.parse().ok()).unwrap_or(otherwise)
}

/// A new folder for files, which is removed in the end.
pub struct Folder(pub PathBuf);

impl Folder {
    pub fn new() -> Folder {
        static NUMBER: AtomicUsize = AtomicUsize::new(0);
        let name = format!("cmwq-{}-{}", std::process::id(), NUMBER.fetch_add(1, SeqCst));
        let path = std::env::temp_dir().join(name);
        std::fs::create_dir(&path).unwrap();
        Folder(path)
    }

    pub fn path(&self, name: &str) -> PathBuf {
        self.0.join(name)
    }

    /// The names of its files.
    pub fn names(&self) -> Vec<String> {
        let files = std::fs::read_dir(&self.0).unwrap();
        let mut names: Vec<String> = files.map(|file| file.unwrap().file_name().into_string().unwrap()).collect();
        names.sort();
        names
    }
}

impl Drop for Folder {
    fn drop(&mut self) {
        let _ = std::fs::remove_dir_all(&self.0);
    }
}
