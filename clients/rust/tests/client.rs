//! The client beside answers that a program seldom gives. They are told to the model, so that no program is needed.
mod served;

use served::{model, Logs};
use spanner_shards::{spelled, unspelled, Failed, Transaction};
use std::panic::{catch_unwind, AssertUnwindSafe};
use std::time::Duration;
use std::{fs, process, thread};

fn add_one(tx: &mut Transaction<'_>) -> Result<(), Failed> {
    let value = tx.get(b"a")?.map_or(0, |value| String::from_utf8(value).unwrap().parse::<u64>().unwrap());
    tx.put(b"a", (value + 1).to_string().as_bytes())
}

fn logs() -> Logs {
    Logs::made_by(model())
}

fn text(value: Option<Vec<u8>>) -> Option<String> {
    value.map(|value| String::from_utf8(value).unwrap())
}

#[test]
fn words_spell_bytes() {
    let rows: [(&[u8], &[u8]); 5] = [
        (b"plain-09~!", b"plain-09~!"),
        (b"", b""),
        (b"a b", b"a\\x20b"),
        (b"\\", b"\\x5c"),
        (b"=none\n\x00\x7f\xff", b"=none\\x0a\\x00\\x7f\\xff"),
    ];
    for (bytes, word) in rows {
        assert_eq!(spelled(bytes), word);
        assert_eq!(unspelled(word), bytes);
    }
    assert_eq!(unspelled(b"\\x5C\\xfF"), b"\\\xff");
    let every: Vec<u8> = (0..=255).collect();
    assert_eq!(unspelled(&spelled(&every)), every);
    assert!(spelled(&every).iter().all(|byte| matches!(byte, b'!'..=b'~')));
}

#[test]
fn a_commit_tells_timestamp_id_and_value() {
    let logs = logs();
    let store = logs.told(2, &["commit committed 17 3.5"]);
    let done = store.transact(50, |_| Ok::<_, Failed>("done")).unwrap();
    assert_eq!((done.at, done.id.as_str(), done.value), (17, "3.5", "done"));
}

#[test]
fn an_aborted_transaction_is_run_again() {
    for answer in ["commit aborted", "get aborted", "put aborted"] {
        let logs = logs();
        let store = logs.told(2, &[answer]);
        let mut ids = Vec::new();
        store
            .transact(50, |tx| {
                ids.push(tx.id()?);
                add_one(tx)
            })
            .unwrap();
        ids.dedup();
        assert_eq!(ids.len(), 2);
        assert_eq!(text(store.get(b"a").unwrap()), Some("1".into()));
    }
}

// A write goes with the line after it, and what fails of it is told there.
#[test]
fn a_write_that_fails_fails_with_the_next_call() {
    let refused = Failed::Refused { words: "1 Memory".into(), ended: true };
    for (answer, failed) in [("put aborted", Failed::Aborted), ("put ended: fault: 1 Memory", refused)] {
        let logs = logs();
        let store = logs.told(2, &[answer, answer, answer, answer]);
        let committed = store.transact(1, |tx| tx.put(b"a", b"1"));
        let read = store.transact(1, |tx| {
            tx.put(b"a", b"1")?;
            assert_eq!(tx.get(b"a"), Err(failed.clone()));
            Ok::<_, Failed>(())
        });
        let written = store.transact(1, |tx| {
            tx.put(b"a", b"1")?;
            assert_eq!(tx.put(b"b", b"1"), Err(failed.clone()));
            assert_eq!(tx.erase(b"c"), Err(failed.clone()));
            Ok::<_, Failed>(())
        });
        let named = store.transact(1, |tx| {
            tx.put(b"a", b"1")?;
            assert_eq!(tx.id(), Err(failed.clone()));
            Ok::<_, Failed>(())
        });
        for ended in [committed, read, written, named] {
            assert_eq!(ended.err(), Some(failed.clone()));
        }
        for key in [b"a", b"b"] {
            assert_eq!(store.get(key), Ok(None));
        }
    }
}

// What is told of a transaction that was idle for too long is told once. Then the program would serve further writes by themselves.
#[test]
fn no_write_of_an_idle_transaction_stands() {
    let logs = logs();
    let store = logs.open(1, &["--idle", "100"]);
    let ended = store.transact(1, |tx| {
        tx.get(b"a")?;
        thread::sleep(Duration::from_millis(300));
        for key in [b"a", b"b", b"c"] {
            let _ = tx.put(key, b"1");
        }
        Ok::<_, Failed>(())
    });
    assert_eq!(ended, Err(Failed::Aborted));
    for key in [b"a", b"b", b"c"] {
        assert_eq!(store.get(key), Ok(None));
    }
}

#[test]
fn writes_beyond_a_limit_are_refused_at_once() {
    let logs = logs();
    let store = logs.told(1, &["erase fault: 7 BadRequest(many)"]);
    let many = Failed::Refused { words: "7 BadRequest(many)".into(), ended: false };
    let ended = store.transact(1, |tx| {
        for number in 0..128u8 {
            tx.put(&[b'a', number], b"1")?;
        }
        assert_eq!(tx.erase(b"b"), Err(many.clone()));
        tx.get(&[b'a', 127])
    });
    assert_eq!(ended.unwrap().value, Some(b"1".to_vec()));
    assert_eq!(store.get(&[b'a', 0]), Ok(Some(b"1".to_vec())));
}

#[test]
fn how_an_unknown_transaction_ended() {
    let logs = logs();
    let answers = ["put unknown 3.6", "outcome outcome open", "outcome outcome unknown", "outcome outcome committed 17"];
    let store = logs.told(2, &answers);
    assert_eq!(store.put(b"a", b"1"), Err(Failed::Unknown(Some("3.6".into()))));
    let told: Vec<_> = (0..4).map(|_| store.outcome("3.6")).collect();
    assert_eq!(told, [Ok(None), Ok(None), Ok(Some(17)), Err(Failed::Aborted)]);
}

// The client that ran it is asked, once it is in no use. Another one would know nothing.
#[test]
fn the_client_that_ran_it_is_asked() {
    let logs = logs();
    let store = logs.told(3, &["put unknown 3.6", "commit unknown 3.7"]);
    store.put(b"a", b"1").unwrap_err();
    store.transact(1, add_one).unwrap_err();
    thread::scope(|scope| {
        let mut view = store.view(None).unwrap();
        let asking = [scope.spawn(|| store.outcome("3.6")), scope.spawn(|| store.outcome("3.7"))];
        thread::sleep(Duration::from_millis(200));
        assert_eq!((view.get(b"a"), store.get(b"a")), (Ok(None), Ok(None)));
        assert!(asking.iter().all(|asked| !asked.is_finished()));
        drop(view);
        for asked in asking {
            assert_eq!(asked.join().unwrap(), Err(Failed::Aborted));
        }
    });
    assert_eq!(store.outcome("3.8"), Ok(None));
}

#[test]
fn aborted_at_each_try() {
    let logs = logs();
    let store = logs.told(1, &["commit aborted", "commit aborted", "commit aborted"]);
    let mut runs = 0;
    let ended = store.transact(3, |_| {
        runs += 1;
        Ok::<_, Failed>(())
    });
    assert_eq!((ended, runs), (Err(Failed::Aborted), 3));
    assert!(store.transact(1, add_one).is_ok());
}

#[test]
fn an_unknown_end_has_the_id_and_is_not_run_again() {
    let logs = logs();
    let store = logs.told(2, &["commit unknown 3.5", "put unknown 3.6", "put aborted"]);
    let mut runs = 0;
    let ended = store.transact(50, |_| {
        runs += 1;
        Ok::<_, Failed>(())
    });
    assert_eq!((ended, runs), (Err(Failed::Unknown(Some("3.5".into()))), 1));
    assert_eq!(store.put(b"a", b"1"), Err(Failed::Unknown(Some("3.6".into()))));
    assert_eq!(store.put(b"a", b"1"), Err(Failed::Aborted));
}

#[test]
fn code_that_fails_aborts() {
    let logs = logs();
    let store = logs.told(1, &[]);
    let own = store.transact(50, |tx| -> Result<(), Box<dyn std::error::Error>> {
        tx.put(b"a", b"1")?;
        Err("own".into())
    });
    assert_eq!(own.unwrap_err().to_string(), "own");
    assert_eq!(store.get(b"a").unwrap(), None);
}

#[test]
fn code_that_panics_aborts() {
    let logs = logs();
    let store = logs.told(1, &[]);
    let panicked = catch_unwind(AssertUnwindSafe(|| {
        store.transact(50, |tx| -> Result<(), Failed> {
            tx.put(b"a", b"1")?;
            panic!("own")
        })
    }));
    assert!(panicked.is_err());
    assert_eq!(store.get(b"a").unwrap(), None);
    assert!(store.transact(50, add_one).is_ok());
}

#[test]
fn code_that_goes_on_after_an_abort_puts_nothing() {
    let logs = logs();
    let store = logs.told(2, &["get aborted"]);
    let ended = store.transact(1, |tx| {
        assert_eq!(tx.get(b"a"), Err(Failed::Aborted));
        assert_eq!(tx.put(b"b", b"1"), Err(Failed::Aborted));
        assert_eq!(tx.erase(b"b"), Err(Failed::Aborted));
        Ok::<_, Failed>(())
    });
    assert_eq!(ended, Err(Failed::Aborted));
    assert_eq!(store.get(b"b").unwrap(), None);
}

#[test]
fn code_that_goes_on_after_a_refusal_that_ended_it_puts_nothing() {
    let logs = logs();
    let store = logs.told(2, &["get ended: fault: 3 Stopped"]);
    let refused = Failed::Refused { words: "3 Stopped".into(), ended: true };
    let ended = store.transact(50, |tx| {
        assert_eq!(tx.get(b"a"), Err(refused.clone()));
        assert_eq!(tx.put(b"b", b"1"), Err(refused.clone()));
        Ok::<_, Failed>(())
    });
    assert_eq!(ended, Err(refused));
    assert_eq!(store.get(b"b").unwrap(), None);
}

#[test]
fn a_transaction_that_does_not_begin_puts_nothing() {
    for reads in [true, false] {
        let logs = logs();
        let store = logs.told(2, &["begin fault: 1 Memory"]);
        let refused = Failed::Refused { words: "1 Memory".into(), ended: false };
        let ended = store.transact(50, |tx| {
            assert!(!reads || tx.get(b"a") == Err(refused.clone()));
            assert_eq!(tx.put(b"b", b"1"), Err(refused.clone()));
            assert_eq!(tx.erase(b"b"), Err(refused.clone()));
            Ok::<_, Failed>(())
        });
        assert_eq!(ended, Err(refused));
        assert_eq!(store.get(b"b").unwrap(), None);
        assert!(store.transact(50, add_one).is_ok());
    }
}

#[test]
fn a_refusal_that_leaves_it_open() {
    let logs = logs();
    let store = logs.told(1, &["get fault: 1 Memory", "commit fault: 1 Memory"]);
    let refused = Failed::Refused { words: "1 Memory".into(), ended: false };
    let code = |tx: &mut Transaction<'_>| {
        let _ = tx.get(b"b");
        tx.put(b"a", b"1")
    };
    assert_eq!(store.transact(50, code), Err(refused));
    assert_eq!(store.get(b"a").unwrap(), None);
    assert!(store.transact(50, code).is_ok());
    assert_eq!(text(store.get(b"a").unwrap()), Some("1".into()));
}

#[test]
fn a_view_that_ended() {
    let logs = logs();
    let store = logs.told(1, &["get ended: fault: 3 Stopped", "view fault: 8 Early"]);
    assert!(store.view(None).is_err());
    let mut view = store.view(None).unwrap();
    let refused = Failed::Refused { words: "3 Stopped".into(), ended: true };
    assert_eq!(view.get(b"a"), Err(refused.clone()));
    assert_eq!(view.get(b"a"), Err(refused));
    drop(view);
    assert_eq!(store.view(None).unwrap().get(b"a"), Ok(None));
}

#[test]
fn a_view_of_another_time() {
    let logs = logs();
    let store = logs.open(1, &[]);
    let first = store.put(b"a", b"1").unwrap().at;
    store.put(b"a", b"2").unwrap();
    for (at, value) in [(first - 1, None), (first, Some("1".to_string()))] {
        let mut view = store.view(Some(at)).unwrap();
        assert_eq!((view.at, text(view.get(b"a").unwrap())), (at, value));
    }
    let late = Failed::Refused { words: "9 NotYet".into(), ended: false };
    assert_eq!(store.view(Some(1 << 61)).unwrap().get(b"a"), Err(late));
}

#[test]
fn an_idle_transaction_is_run_again() {
    let logs = logs();
    let store = logs.open(1, &["--idle", "100"]);
    let mut runs = 0;
    store
        .transact(50, |tx| {
            runs += 1;
            tx.get(b"a")?;
            thread::sleep(Duration::from_millis(if runs == 1 { 300 } else { 0 }));
            add_one(tx)
        })
        .unwrap();
    assert_eq!(runs, 2);
    assert_eq!(text(store.get(b"a").unwrap()), Some("1".into()));
}

#[test]
fn a_late_answer_reaches_its_client() {
    let logs = logs();
    let store = logs.told(2, &["get late 0.5"]);
    store.put(b"a", b"1").unwrap();
    store.put(b"b", b"2").unwrap();
    thread::scope(|scope| {
        let slow = scope.spawn(|| store.get(b"a"));
        thread::sleep(Duration::from_millis(200));
        assert_eq!(text(store.get(b"b").unwrap()), Some("2".into()));
        assert!(!slow.is_finished());
        assert_eq!(text(slow.join().unwrap().unwrap()), Some("1".into()));
    });
}

#[test]
fn more_threads_than_clients() {
    let logs = logs();
    let store = logs.open(3, &[]);
    thread::scope(|scope| {
        for number in 0..8 {
            let store = &store;
            scope.spawn(move || {
                for turn in 0..20 {
                    let key = format!("{number}-{turn}").into_bytes();
                    store.put(&key, &key).unwrap();
                    assert_eq!(store.get(&key), Ok(Some(key)));
                    store.transact(1000, add_one).unwrap();
                }
            });
        }
    });
    assert_eq!(text(store.get(b"a").unwrap()), Some("160".into()));
}

#[test]
fn a_kill_while_calls_wait() {
    let logs = logs();
    let store = logs.told(2, &["get late 60"]);
    thread::scope(|scope| {
        let waits = scope.spawn(|| store.get(b"a"));
        thread::sleep(Duration::from_millis(200));
        store.child.lock().unwrap().kill().unwrap();
        assert_eq!(waits.join().unwrap(), Err(Failed::Closed));
    });
    assert!(matches!(store.put(b"a", b"1"), Err(Failed::Closed | Failed::Unknown(None))));
    assert_eq!(store.get(b"a"), Err(Failed::Closed));
    assert!(!store.close().unwrap().success());
}

#[test]
fn a_kill_while_a_commit_is_asked_for() {
    for answer in ["commit die", "commit cut committed 17"] {
        let logs = logs();
        let store = logs.told(2, &[answer]);
        let mut ids = Vec::new();
        let ended = store.transact(50, |tx| {
            ids.push(tx.id()?);
            tx.put(b"a", b"1")
        });
        assert_eq!(ended, Err(Failed::Unknown(ids.pop())));
        assert_eq!(logs.open(2, &[]).get(b"a"), Ok(None));
    }
}

#[test]
fn a_kill_while_a_write_is_asked_for() {
    let logs = logs();
    let store = logs.told(2, &["put die"]);
    assert_eq!(store.put(b"a", b"1"), Err(Failed::Unknown(None)));
    let store = logs.told(2, &["put die"]);
    assert_eq!(store.transact(50, |tx| tx.put(b"a", b"1").and_then(|()| tx.put(b"b", b"1"))), Err(Failed::Closed));
    // The commit went along.
    let store = logs.told(2, &["put die"]);
    let ended = store.transact(50, |tx| tx.put(b"a", b"1")).unwrap_err();
    assert!(matches!(ended, Failed::Unknown(Some(_))), "{ended}");
}

#[test]
fn closed() {
    let logs = logs();
    let store = logs.open(2, &[]);
    assert!(store.close().unwrap().success());
    assert!(store.close().unwrap().success());
    assert_eq!(store.transact(50, add_one), Err(Failed::Closed));
    assert_eq!(store.put(b"a", b"1"), Err(Failed::Closed));
}

// The parent and the process group of a process, by its number or `self`.
fn parent_and_group(process: &str) -> Option<(u32, u32)> {
    let stat = fs::read_to_string(format!("/proc/{process}/stat")).ok()?;
    let mut words = stat.rsplit(')').next()?.split_whitespace().skip(1);
    Some((words.next()?.parse().ok()?, words.next()?.parse().ok()?))
}

#[test]
fn a_program_is_in_a_group_of_its_own() {
    let logs = logs();
    let _store = logs.open(1, &[]);
    let own = parent_and_group("self").unwrap().1;
    let processes = fs::read_dir("/proc").unwrap().filter_map(|entry| entry.ok()?.file_name().into_string().ok());
    // Threads of other tests start programs too, of which one that makes a store is in this group.
    let serving = processes.filter(|process| {
        let words = fs::read(format!("/proc/{process}/cmdline")).unwrap_or_default();
        words.split(|byte| *byte == 0).any(|word| word == b"serve")
    });
    let groups: Vec<u32> = serving
        .filter_map(|process| parent_and_group(&process))
        .filter(|(parent, _)| *parent == process::id())
        .map(|(_, group)| group)
        .collect();
    assert!(!groups.is_empty() && !groups.contains(&own), "{groups:?} and {own}");
}
