#![doc = include_str!("../README.md")]

use std::hash::{BuildHasher, RandomState};
use std::io::{self, BufRead, BufReader, Write};
use std::os::unix::process::CommandExt;
use std::process::{Child, ChildStdin, ChildStdout, Command, ExitStatus, Stdio};
use std::sync::{Condvar, Mutex};
use std::{env, fmt, iter, mem, path::Path, thread, time::Duration};

/// Why a call did not do what was asked.
#[derive(Debug, Clone, PartialEq, Eq)]
pub enum Failed {
    /// The transaction stands nowhere: it was aborted, at each try.
    Aborted,
    /// Nobody said how the transaction ended: it stands whole at one timestamp, or nowhere. Its id, if that was told.
    Unknown(Option<String>),
    /// The store refused it: the number and the words of a fault, and whether the transaction or view is over.
    Refused { words: String, ended: bool },
    /// The store is closed, or its program has ended, and what was asked for changed nothing.
    Closed,
}

impl fmt::Display for Failed {
    fn fmt(&self, f: &mut fmt::Formatter<'_>) -> fmt::Result {
        let Failed::Refused { words, .. } = self else { return write!(f, "{self:?}") };
        write!(f, "fault: {words}")
    }
}

impl std::error::Error for Failed {}

/// A transaction stands at the timestamp `at`, in microseconds. `value` is what its code gave.
#[derive(Debug, Clone, PartialEq, Eq)]
pub struct Committed<T> {
    pub at: u64,
    pub id: String,
    pub value: T,
}

/// A store that is open. Threads may share it: each call takes one of its clients, and waits while all are in use.
pub struct Store {
    /// The program. If it is killed, what was answered stays.
    pub child: Mutex<Child>,
    pipe: Pipe,
    // The numbers of the clients that are in no use, and what wakes those that wait for one.
    free: (Mutex<Vec<usize>>, Condvar),
    // The last ids that were answered `unknown`, each with the number of its client.
    doubts: Mutex<Vec<(String, usize)>>,
}

impl Store {
    /// Opens the store in a folder for 64 clients, by the program that SHARDS_PROGRAM names, or else by `run` of this crate's repository.
    pub fn open(folder: impl AsRef<Path>) -> io::Result<Store> {
        let run = || Path::new(env!("CARGO_MANIFEST_DIR")).join("../../run").into();
        let mut command = Command::new(env::var_os("SHARDS_PROGRAM").unwrap_or_else(run));
        command.arg("serve").arg(folder.as_ref()).args(["--clients", "64"]);
        Store::start(command, 64)
    }

    /// Opens a store by a command of one's own, which serves so many clients, 1 to 64.
    pub fn start(mut command: Command, clients: usize) -> io::Result<Store> {
        let mut child = command.stdin(Stdio::piped()).stdout(Stdio::piped()).process_group(0).spawn()?;
        let output = child.stdout.take().ok_or(io::ErrorKind::BrokenPipe)?;
        let (mut output, mut ready) = (BufReader::with_capacity(65536, output), String::new());
        if output.read_line(&mut ready).is_err() || !ready.starts_with("ready") {
            return Err(io::Error::other(format!("the store was not opened: {}; standard error has the reason", child.wait()?)));
        }
        let (lines, came) = ((Some(Vec::new()), child.stdin.take()).into(), (0..clients).map(|_| Condvar::new()).collect());
        let pipe = Pipe { lines, output: output.into(), ears: vec![(0, String::new()); clients].into(), came };
        Ok(Store { child: child.into(), pipe, free: (Mutex::new((0..clients).collect()), Condvar::new()), doubts: Mutex::default() })
    }

    /// Runs the code of a transaction and commits what it did; up to `tries` times, while that is aborted. Another failure of the code aborts it.
    pub fn transact<T, E: From<Failed>>(&self, tries: u32, mut f: impl FnMut(&mut Transaction) -> Result<T, E>) -> Result<Committed<T>, E> {
        for attempt in 0..u64::from(tries) {
            let mut tx = self.lease(None, ());
            tx.add("begin", &[]);
            let ended = f(&mut tx).and_then(|value| Ok(tx.commit("commit", &[], value)?));
            if tx.over != Some(Failed::Aborted) {
                return ended;
            }
            thread::sleep(Duration::from_micros(RandomState::new().hash_one(attempt) % (1 + 1000 * attempt.min(20))));
        }
        Err(Failed::Aborted.into())
    }

    /// A view of the present, or of a time in microseconds: all that it answers stood then.
    pub fn view(&self, at: Option<u64>) -> Result<View<'_>, Failed> {
        let (mut view, verb) = (self.lease(None, 0), at.map_or("view".into(), |at| format!("view {at}")));
        view.at = parted(&view.ask(&verb, &[], Failed::Closed)?).1.parse().map_err(|_| Failed::Closed)?;
        Ok(view)
    }

    /// The value of a key at the present.
    pub fn get(&self, key: &[u8]) -> Result<Option<Vec<u8>>, Failed> {
        self.lease(None, ()).get(key)
    }

    /// Commits one write. If it is aborted the program tries again, for two seconds.
    pub fn put(&self, key: &[u8], value: &[u8]) -> Result<Committed<()>, Failed> {
        self.lease(None, ()).commit("put", &[key, value], ())
    }

    /// The timestamp of a transaction that was `Unknown`, or `Aborted` if it stands nowhere. If nobody can tell yet, it gives `None`: ask again.
    pub fn outcome(&self, id: &str) -> Result<Option<u64>, Failed> {
        let whose = self.doubts.lock().unwrap().iter().find(|doubt| doubt.0 == id).map(|doubt| doubt.1);
        let answer = self.lease(whose, ()).ask("outcome", &[id.as_bytes()], Failed::Closed)?;
        let (how, at) = parted(parted(&answer).1);
        (how != "aborted").then(|| at.parse().ok()).ok_or(Failed::Aborted)
    }

    /// The numbers of the store, as Prometheus reads them.
    pub fn stats(&self) -> Result<String, Failed> {
        let answer = self.lease(None, ()).ask("stats", &[], Failed::Closed)?;
        Ok(words(&answer).flatten().map(|text| String::from_utf8_lossy(&text).into_owned()).collect())
    }

    /// Ends the program, which first answers what was asked, and gives up what is open. So does dropping the store.
    pub fn close(&self) -> io::Result<ExitStatus> {
        let _ = self.pipe.send(b"quit\n");
        self.child.lock().unwrap().wait()
    }

    fn lease<At>(&self, number: Option<usize>, at: At) -> Open<'_, At> {
        let place = |free: &[usize]| free.iter().rposition(|one| number.is_none_or(|number| number == *one));
        let mut free = self.free.1.wait_while(self.free.0.lock().unwrap(), |free| place(free).is_none()).unwrap();
        let number = place(&free).map(|place| free.swap_remove(place)).unwrap();
        Open { store: self, number, text: Vec::new(), writes: 0, end: None, id: None, over: None, at }
    }
}

impl Drop for Store {
    fn drop(&mut self) {
        let _ = self.close();
    }
}

struct Pipe {
    // The lines that wait until the thread that writes takes them along, or nothing once the store is closed; and the stream while none writes.
    lines: Mutex<(Option<Vec<u8>>, Option<ChildStdin>)>,
    output: Mutex<BufReader<ChildStdout>>,
    // For how many answers each client waits, with those that have come; and what wakes it.
    ears: Mutex<Vec<(usize, String)>>,
    came: Vec<Condvar>,
}

impl Pipe {
    // Sends whole lines. It fails if nothing of them was written: the system writes up to 4,096 bytes whole, or none of them.
    fn send(&self, text: &[u8]) -> Result<(), Failed> {
        let mut lines = self.lines.lock().unwrap();
        lines.0.as_mut().ok_or(Failed::Closed)?.extend_from_slice(text);
        let (Some(mut input), mut sent) = (lines.1.take(), None) else { return Ok(()) };
        while let Some(text) = lines.0.as_mut().map(mem::take).filter(|text| !text.is_empty()) {
            drop(lines);
            let written = input.write_all(&text).is_ok();
            sent = sent.or((written || text.len() > 4096).then_some(Ok(())).or(Some(Err(Failed::Closed))));
            lines = self.lines.lock().unwrap();
            lines.0 = lines.0.take().filter(|_| written);
        }
        lines.1 = lines.0.is_some().then_some(input);
        sent.unwrap_or(Ok(()))
    }

    // Sends lines of a client, and waits for their answers: fewer if the store is closed first. One of those that wait reads for all.
    fn ask(&self, number: usize, count: usize, text: &[u8]) -> Result<String, Failed> {
        self.ears.lock().unwrap()[number] = (count, String::new());
        let (sent, mut line) = (self.send(text), String::new());
        let mut ears = self.ears.lock().unwrap();
        while sent.is_ok() && ears[number].0 > 0 {
            let Ok(mut output) = self.output.try_lock() else {
                ears = self.came[number].wait(ears).unwrap();
                continue;
            };
            drop(ears);
            line.clear();
            let is_whole = output.read_line(&mut line).is_ok() && line.ends_with('\n');
            ears = self.ears.lock().unwrap();
            let (client, answer) = parted(&line);
            let Some(client) = client.parse().ok().filter(|client: &usize| is_whole && *client < ears.len()) else { break };
            ears[client] = (ears[client].0.saturating_sub(1), mem::take(&mut ears[client].1) + answer);
            (ears[client].0 == 0).then(|| self.came[client].notify_one());
        }
        let heard = mem::take(&mut ears[number]).1;
        // If nobody reads now, one that waits does.
        ears.iter().position(|ear| ear.0 > 0).filter(|_| self.output.try_lock().is_ok()).inspect(|next| self.came[*next].notify_one());
        sent.map(|()| heard)
    }
}

/// A client that is in use, of which each line gets one answer. What it has open is ended when it is dropped.
pub struct Open<'s, At> {
    store: &'s Store,
    number: usize,
    // Lines that go with the next one: a `begin`, or the last write.
    text: Vec<u8>,
    writes: usize,
    // The line that ends what is open, and the id of a transaction.
    end: Option<&'static str>,
    id: Option<String>,
    // Why the transaction or view is over. Then no line of it is sent: the program would serve it by itself.
    over: Option<Failed>,
    /// The timestamp of a view, in microseconds.
    pub at: At,
}

/// The key that the next page begins with, if there is one, and the keys of this one, which have a value, ascending.
pub type Page = (Option<Vec<u8>>, Vec<Vec<u8>>);
/// A transaction that is open. It sees what it has put.
pub type Transaction<'s> = Open<'s, ()>;
/// What stood at one timestamp, `at`.
pub type View<'s> = Open<'s, u64>;

impl<At> Open<'_, At> {
    /// The value of a key.
    pub fn get(&mut self, key: &[u8]) -> Result<Option<Vec<u8>>, Failed> {
        Ok(self.get_all(&[key])?.pop().flatten())
    }

    /// The values of some keys, asked for at once.
    pub fn get_all(&mut self, keys: &[&[u8]]) -> Result<Vec<Option<Vec<u8>>>, Failed> {
        Ok(words(&self.ask("get", keys, Failed::Closed)?).collect())
    }

    fn add(&mut self, verb: &str, data: &[&[u8]]) {
        self.text.extend_from_slice(format!("{} {verb}", self.number).as_bytes());
        data.iter().for_each(|bytes| self.text.extend([b" ", &spelled(bytes)[..]].concat()));
        self.text.push(b'\n');
    }

    fn ask(&mut self, verb: &str, data: &[&[u8]], lost: Failed) -> Result<String, Failed> {
        self.add(verb, data);
        self.send(lost)
    }

    // Sends the text, and waits: for the last answer, or what the first line failed with that did, which is `lost` if its answer does not come.
    fn send(&mut self, lost: Failed) -> Result<String, Failed> {
        let text = mem::take(&mut self.text);
        self.over.clone().map_or(Ok(()), Err)?;
        let count = text.iter().filter(|byte| **byte == b'\n').count();
        let answers = self.store.pipe.ask(self.number, count, &text)?;
        let heard: Vec<_> = answers.lines().chain(iter::repeat("")).take(count).map(|answer| self.heard(answer, &lost)).collect();
        heard.into_iter().reduce(Result::and).unwrap_or(Ok(String::new()))
    }

    fn heard(&mut self, answer: &str, lost: &Failed) -> Result<String, Failed> {
        let (first, rest) = parted(answer);
        let failed = match first {
            "aborted" => Some(Failed::Aborted),
            "unknown" => Some(Failed::Unknown(Some(rest.into()))),
            "fault:" => Some(Failed::Refused { words: rest.into(), ended: false }),
            "ended:" => Some(Failed::Refused { words: parted(rest).1.into(), ended: true }),
            "" => Some(lost.clone()),
            _ => None,
        };
        match first {
            "begun" => (self.end, self.id) = (Some("abort"), Some(rest.into())),
            "at" => self.end = Some("end"),
            "committed" => self.end = None,
            "fault:" if self.end.is_some() => {}
            _ => self.over = self.over.take().or_else(|| failed.clone()),
        }
        if first == "unknown" {
            let mut doubts = self.store.doubts.lock().unwrap();
            doubts.insert(0, (rest.into(), self.number));
            doubts.truncate(1024);
        }
        failed.map_or(Ok(answer.into()), Err)
    }
}

impl<At> Drop for Open<'_, At> {
    fn drop(&mut self) {
        let _ = self.end.map(|end| self.ask(end, &[], Failed::Closed));
        self.store.free.0.lock().unwrap().push(self.number);
        self.store.free.1.notify_all();
    }
}

impl Open<'_, ()> {
    /// Its id.
    pub fn id(&mut self) -> Result<String, Failed> {
        self.send(Failed::Closed)?;
        self.id.clone().ok_or(Failed::Closed)
    }

    /// Puts a value. If that fails, the next call may tell it.
    pub fn put(&mut self, key: &[u8], value: &[u8]) -> Result<(), Failed> {
        self.write("put", &[key, value])
    }

    /// Takes the value of a key away, as `put`.
    pub fn erase(&mut self, key: &[u8]) -> Result<(), Failed> {
        self.write("erase", &[key])
    }

    // A write that is surely taken goes with the next line. Of two writes that went together the program might serve the second by itself.
    fn write(&mut self, verb: &str, data: &[&[u8]]) -> Result<(), Failed> {
        self.send(Failed::Closed)?;
        self.add(verb, data);
        self.writes += 1;
        let waits = self.writes <= 128 && (1..=64).contains(&data[0].len()) && data[data.len() - 1].len() <= 4096;
        waits.then_some(()).map_or_else(|| self.send(Failed::Closed).map(drop), Ok)
    }

    fn commit<T>(&mut self, verb: &str, data: &[&[u8]], value: T) -> Result<Committed<T>, Failed> {
        let unknown = Failed::Unknown(self.id.clone());
        let answer = self.ask(verb, data, unknown.clone())?;
        let (at, id) = parted(parted(&answer).1);
        Ok(Committed { at: at.parse().map_err(|_| unknown)?, id: id.into(), value })
    }
}

impl Open<'_, u64> {
    /// A page of the keys from one on, and before another unless that is empty: at most `limit`, 1 to 1,000, and maybe none.
    pub fn keys(&mut self, from: &[u8], to: &[u8], limit: u64) -> Result<Page, Failed> {
        let answer = self.ask("keys", &[from, to, limit.to_string().as_bytes()], Failed::Closed)?;
        let mut words = words(parted(&answer).1);
        Ok((words.next().flatten(), words.flatten().collect()))
    }
}

/// The word that spells some bytes: printable ASCII but the blank and the backslash stands for itself, and each other byte is `\xHH`.
pub fn spelled(bytes: &[u8]) -> Vec<u8> {
    let mut word = Vec::with_capacity(bytes.len());
    for byte in bytes {
        match byte {
            b'!'..=b'~' if *byte != b'\\' => word.push(*byte),
            _ => word.extend_from_slice(format!("\\x{byte:02x}").as_bytes()),
        }
    }
    word
}

/// The bytes that a word spells.
pub fn unspelled(word: &[u8]) -> Vec<u8> {
    let digit = |byte: Option<&u8>| byte.and_then(|byte| char::from(*byte).to_digit(16)).map_or(0, |digit| digit as u8);
    let (mut rest, mut bytes) = (word.iter(), Vec::with_capacity(word.len()));
    while let Some(byte) = rest.next() {
        bytes.push(if *byte == b'\\' { 16 * digit(rest.nth(1)) + digit(rest.next()) } else { *byte });
    }
    bytes
}

fn parted(line: &str) -> (&str, &str) {
    line.split_once(' ').unwrap_or((line, ""))
}

fn words(line: &str) -> impl Iterator<Item = Option<Vec<u8>>> + '_ {
    line.split(' ').map(|word| word.strip_prefix('=').map(|word| unspelled(word.as_bytes())))
}
