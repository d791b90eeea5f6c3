//! Running out of memory ends the program, as in Rust's own containers, and sets give back what they took.

use std::{env, fs, os::unix::process::ExitStatusExt, process::Command, thread};

use globset::{Glob, GlobSet};

const ABORTED: i32 = 6;

#[test]
fn running_out_of_memory_aborts() {
    // The other test of this file is run by a process of its own, which may have 400 MB.
    let script = "ulimit -v 400000 && exec \"$0\" --ignored --exact --test-threads=1 --nocapture fills_the_memory";
    let program = env::current_exe().expect("the program of this test");
    let ended = Command::new("sh").args(["-c", script]).arg(program).output().expect("the program runs");
    let error = String::from_utf8_lossy(&ended.stderr);
    assert_eq!(ended.status.signal(), Some(ABORTED), "{error}");
    assert!(error.contains("memory allocation of"), "{error}");
}

#[test]
#[ignore = "it takes all memory that it can have"]
fn fills_the_memory() {
    let glob = Glob::new(&"a".repeat(100_000)).expect("a glob");
    let mut sets = vec![];
    loop {
        sets.push(GlobSet::new([&glob]).expect("a set"));
    }
}

/// How many bytes of addresses this process has.
fn used() -> usize {
    let text = fs::read_to_string("/proc/self/statm").expect("a file of the system");
    text.split(' ').next().and_then(|pages| pages.parse::<usize>().ok()).expect("a number of pages") * 4096
}

/// Makes a set, asks it in a thread, and drops it here. The memory to match with takes 4 MB or more.
fn ask_in_a_thread() {
    let texts = (0..100).map(|number| format!("*{number}?*abcdefghijklmnop?{number}*"));
    let globs: Vec<Glob> = texts.map(|text| Glob::new(&text).expect("a glob")).collect();
    let set = GlobSet::new(&globs).expect("a set");
    let clone = set.clone();
    let asked = thread::spawn(move || clone.is_match("17x_abcdefghijklmnop_17")).join().expect("a thread ends");
    assert!(asked && set.is_match("7x_abcdefghijklmnop_7"));
}

#[test]
fn the_last_clone_of_a_set_frees_what_threads_matched_with() {
    (0..5).for_each(|_| ask_in_a_thread());
    let before = used();
    (0..50).for_each(|_| ask_in_a_thread());
    assert!(used() < before + 100_000_000);
}
