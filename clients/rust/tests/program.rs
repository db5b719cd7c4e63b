//! Tests over programs that serve: the model, and the built program, where there is one.
#[path = "../examples/bank.rs"]
mod bank;
mod served;

use bank::{total, Bank};
use served::{programs, Logs};
use spanner_shards::{Failed, Transaction};
use std::thread;
use std::time::Duration;

fn add_one(tx: &mut Transaction<'_>) -> Result<(), Failed> {
    let value = tx.get(b"a")?.map_or(0, |value| String::from_utf8(value).unwrap().parse::<u64>().unwrap());
    tx.put(b"a", (value + 1).to_string().as_bytes())
}

#[test]
fn a_transaction_and_a_view() {
    for program in programs() {
        let logs = Logs::made_by(program);
        let store = logs.open(4, &[]);
        let first = store.put(b"a", b"1").unwrap();
        let mut view = store.view(None).unwrap();
        let seen = store.transact(50, |tx| {
            tx.put(b"z", b"2")?;
            tx.erase(b"a")?;
            tx.get_all(&[b"a", b"z", b"none"])
        });
        let seen = seen.unwrap();
        assert_eq!(seen.value, [None, Some(b"2".to_vec()), None]);
        assert!(first.at < view.at && view.at < seen.at);
        assert_eq!(view.get_all(&[b"a", b"z"]), Ok(vec![Some(b"1".to_vec()), None]));
        drop(view);
        assert_eq!(store.view(None).unwrap().get_all(&[b"a", b"z"]), Ok(vec![None, Some(b"2".to_vec())]));
    }
}

#[test]
fn keys_by_pages() {
    for program in programs() {
        let logs = Logs::made_by(program);
        let store = logs.open(4, &[]);
        let rows: Vec<Vec<u8>> =
            (0..50).map(|number| format!("{} {number:02}", if number < 25 { "a" } else { "z" }).into_bytes()).collect();
        for key in rows.iter().rev() {
            store.put(key, b"1").unwrap();
        }
        let mut view = store.view(None).unwrap();
        store.transact(50, |tx| tx.erase(&rows[0]).and_then(|()| tx.put(b"b", b"2"))).unwrap();
        let (mut found, mut next) = (Vec::new(), Some(vec![0]));
        while let Some(from) = next {
            let (after, keys) = view.keys(&from, b"", 7).unwrap();
            found.extend(keys);
            next = after;
        }
        assert_eq!(found, rows);
        assert_eq!(view.keys(&rows[3], &rows[5], 1000), Ok((None, rows[3..5].to_vec())));
        for limit in [0, 1001] {
            assert!(matches!(view.keys(b"a", b"", limit), Err(Failed::Refused { ended: false, .. })));
        }
        let later = store.view(None).unwrap().keys(&[0], b"", 1000);
        assert_eq!(later, Ok((Some(b"m".to_vec()), [&rows[1..25], &[b"b".to_vec()]].concat())));
    }
}

#[test]
fn numbers_and_ends_are_told() {
    for program in programs() {
        let logs = Logs::made_by(program);
        let store = logs.open(4, &[]);
        let id = store.put(b"a", b"1").unwrap().id;
        store.put(b"b", b"1").unwrap();
        let stats = store.stats().unwrap();
        assert!(stats.contains("spanner_shards_commits{shard=\"0\"} 2\n"), "{stats}");
        // A client knows only what was unknown.
        assert_eq!(store.outcome(&id), Ok(None));
        assert!(matches!(store.outcome("no id"), Err(Failed::Refused { ended: false, .. })));
    }
}

#[test]
fn all_bytes_are_kept() {
    let every: Vec<u8> = (0..=255).collect();
    for program in programs() {
        let logs = Logs::made_by(program);
        let store = logs.open(4, &[]);
        for key in every.chunks(64) {
            store.put(key, &every).unwrap();
        }
        store.put(b"long", &[0; 4096]).unwrap();
        store.put(b"empty", b"").unwrap();
        assert!(store.close().unwrap().success());
        let store = logs.open(4, &[]);
        for key in every.chunks(64) {
            assert_eq!(store.get(key), Ok(Some(every.clone())));
        }
        assert_eq!(store.get(b"long"), Ok(Some(vec![0; 4096])));
        assert_eq!(store.get(b"empty"), Ok(Some(Vec::new())));
    }
}

#[test]
fn what_is_refused_leaves_it_open() {
    for program in programs() {
        let logs = Logs::made_by(program);
        let store = logs.open(4, &[]);
        let is_bad = |failed: Failed| matches!(failed, Failed::Refused { words, ended: false } if words.starts_with("7 "));
        let put = store.transact(50, |tx| {
            assert!(is_bad(tx.get(b"").unwrap_err()));
            assert!(is_bad(tx.put(&[b'k'; 65], b"1").unwrap_err()));
            assert!(is_bad(tx.put(b"k", &[b'v'; 4097]).unwrap_err()));
            assert!(is_bad(tx.put(b"k", &[b'v'; 70_000]).unwrap_err()));
            tx.put(b"k", b"kept")
        });
        assert!(put.is_ok());
        assert!(is_bad(store.get(b"").unwrap_err()));
        assert_eq!(store.get(b"k"), Ok(Some(b"kept".to_vec())));
    }
}

#[test]
fn threads_add() {
    for program in programs() {
        let logs = Logs::made_by(program);
        let store = logs.open(8, &[]);
        thread::scope(|scope| {
            for _ in 0..8 {
                scope.spawn(|| {
                    for _ in 0..10 {
                        store.transact(1000, add_one).unwrap();
                    }
                });
            }
        });
        assert_eq!(store.get(b"a"), Ok(Some(b"80".to_vec())));
    }
}

#[test]
fn a_second_opening_is_refused() {
    for program in programs() {
        let logs = Logs::made_by(program);
        let store = logs.open(2, &[]);
        let refused = logs.try_open(2, &[]).err().map(|error| error.to_string());
        assert!(refused.as_ref().is_some_and(|words| words.contains("exit status: 2")), "{refused:?}");
        store.put(b"a", b"1").unwrap();
        drop(store);
        assert_eq!(logs.open(2, &[]).get(b"a"), Ok(Some(b"1".to_vec())));
    }
}

#[test]
fn ten_kills() {
    for program in programs() {
        let logs = Logs::made_by(program.clone());
        let mut bank = Bank::default();
        for kill in 0..10 {
            bank.serve_until_killed(&logs.open(8, &[]), Duration::from_millis(37 + 91 * kill)).unwrap();
        }
        let store = logs.open(8, &[]);
        bank.check(&store).unwrap();
        println!("{program}: kills {} moves {} audits {} wrong {}", bank.kills, bank.moves, bank.audits, bank.wrong);
        assert_eq!((bank.kills, bank.wrong, total(&store)), (10, 0, Ok(16_000)));
        assert!(bank.moves > 0 && bank.audits >= 21);
    }
}
