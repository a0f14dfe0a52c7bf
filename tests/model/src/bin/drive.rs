//! Holds the program `calls` to the model: `drive SEED COUNT CALLS COMMAND..`.
//!
//! Starts the command once, feeds it random calls and compares every word of every outcome with the model's. CALLS names
//! the calls to try, as `plan,fill,change,show`. Ends with 1 at the first difference, or if something was never reached.

use model::frame::{outcome, words, REPLY};
use model::random::calls::{any_call, Call};
use model::random::chains::Chain;
use model::random::{Random, Size, BIG, CROWDED, SMALL};
use model::reached::{name, Reached, CALLS};
use std::io::{Read, Write};
use std::process::{ChildStdin, Command, ExitCode, Stdio};
use std::sync::mpsc::{sync_channel, Receiver, SyncSender};

/// Calls on their way at one time.
const AHEAD: usize = 256;

/// A call, the model's outcome, and after a lawful change the words that the store must hold by the base tables alone.
struct Case {
    call: Call,
    outcome: Vec<u64>,
    filled: Option<Vec<u64>>,
}

fn main() -> ExitCode {
    let arguments: Vec<String> = std::env::args().skip(1).collect();
    let [seed, count, tried, command @ ..] = arguments.as_slice() else {
        return fail("usage: drive SEED COUNT CALLS COMMAND..");
    };
    let (Ok(seed), Ok(count)) = (seed.parse(), count.parse()) else {
        return fail("SEED and COUNT are numbers");
    };
    let tried: Vec<&str> = tried.split(',').collect();
    if command.is_empty() || tried.iter().any(|call| !CALLS.contains(call)) {
        return fail("CALLS are some of plan,fill,change,show, and a command follows");
    }
    match drive(seed, count, &tried, command) {
        Ok(reached) => report(&reached, seed, count, &tried),
        Err(what) => fail(&what),
    }
}

fn fail(what: &str) -> ExitCode {
    eprintln!("drive: {what}");
    ExitCode::FAILURE
}

fn report(reached: &Reached, seed: u64, count: usize, tried: &[&str]) -> ExitCode {
    reached.print();
    let missing = reached.missing(tried);
    if !missing.is_empty() {
        return fail(&format!("never reached: {}", missing.join("; ")));
    }
    println!(
        "calls: {count} random calls of seed {seed} ({}) come out as the model says, word for word",
        tried.join(", ")
    );
    ExitCode::SUCCESS
}

fn drive(seed: u64, count: usize, tried: &[&str], command: &[String]) -> Result<Reached, String> {
    let started = Command::new(&command[0])
        .args(&command[1..])
        .stdin(Stdio::piped())
        .stdout(Stdio::piped())
        .spawn();
    let mut program = started.map_err(|error| format!("{}: {error}", command[0]))?;
    let input = program.stdin.take().expect("a pipe");
    let mut output = program.stdout.take().expect("a pipe");
    let (cases, answers) = sync_channel(AHEAD);
    let tried: Vec<String> = tried.iter().map(|call| call.to_string()).collect();
    let feeder = std::thread::spawn(move || feed(seed, count, &tried, input, &cases));
    let compared = compare(&answers, &mut output);
    drop(answers);
    let rest = output.read_to_end(&mut Vec::new());
    let reached = feeder.join().map_err(|_| "the model stopped".to_string())?;
    compared?;
    if rest.map_err(|error| error.to_string())? != 0 {
        return Err("the program writes more than it was asked".to_string());
    }
    let status = program.wait().map_err(|error| error.to_string())?;
    match status.success() {
        true => Ok(reached),
        false => Err(format!("the program ended with {status}")),
    }
}

/// Makes calls, sends them, and passes each on with what must come back.
fn feed(
    seed: u64,
    count: usize,
    tried: &[String],
    mut input: ChildStdin,
    cases: &SyncSender<Case>,
) -> Reached {
    let mut random = Random::new(seed);
    let mut reached = Reached::default();
    let mut sent = 0;
    let mut chain = None;
    while sent < count {
        let case = next_case(&mut random, &mut chain);
        if !tried.iter().any(|call| call == name(&case.call)) {
            continue;
        }
        reached.note(&case.call, &case.outcome);
        if case.filled.is_some() && name(&case.call) == "change" {
            reached.note_fill();
        }
        let frame: Vec<u8> = words(&case.call)
            .into_iter()
            .flat_map(u64::to_le_bytes)
            .collect();
        // Whoever compares has stopped, or the program has: the other thread says why.
        if cases.send(case).is_err() || input.write_all(&frame).is_err() {
            break;
        }
        sent += 1;
    }
    reached
}

/// Mostly small, now and then big, and crowded in so many of a hundred.
fn size(random: &mut Random, crowded: usize) -> Size {
    if random.chance(crowded) {
        return CROWDED;
    }
    match random.chance(2) {
        true => BIG,
        false => SMALL,
    }
}

/// The next call of a chain, now and then a new chain, or a call by itself.
fn next_case(random: &mut Random, chain: &mut Option<Chain>) -> Case {
    if chain.is_none() && random.chance(10) {
        let size = size(random, 40);
        *chain = Some(Chain::new(random, size));
    }
    if let Some(link) = chain.as_mut().and_then(|chain| chain.next(random)) {
        return Case {
            outcome: outcome(&link.call),
            call: link.call,
            filled: Some(link.store),
        };
    }
    *chain = None;
    let size = size(random, 2);
    let call = any_call(random, size);
    Case {
        outcome: outcome(&call),
        call,
        filled: None,
    }
}

/// Reads an outcome for each case, and compares.
fn compare(cases: &Receiver<Case>, output: &mut impl Read) -> Result<(), String> {
    for (place, case) in cases.iter().enumerate() {
        let mut got = read_words(output, REPLY)
            .map_err(|error| format!("call {place} has no outcome ({error}): {:?}", case.call))?;
        let more = got[REPLY - 1] as usize;
        if more > case.outcome.len() {
            return Err(format!("call {place} has {more} words: {:?}", case.call));
        }
        got.extend(read_words(output, more).map_err(|error| error.to_string())?);
        if got != case.outcome {
            return Err(difference(place, &case.call, &case.outcome, &got));
        }
        if let Some(filled) = case.filled {
            if got[REPLY..] != filled {
                let call = &case.call;
                return Err(format!(
                    "call {place}: the store is not the fill of the tables: {call:?}"
                ));
            }
        }
    }
    Ok(())
}

fn difference(place: usize, call: &Call, model: &[u64], got: &[u64]) -> String {
    let at = model.iter().zip(got).take_while(|(a, b)| a == b).count();
    format!(
        "call {place} differs at word {at} of its outcome\n{call:?}\nmodel   {model:?}\nprogram {got:?}"
    )
}

fn read_words(input: &mut impl Read, count: usize) -> std::io::Result<Vec<u64>> {
    let mut bytes = vec![0; 8 * count];
    input.read_exact(&mut bytes)?;
    let words = bytes.chunks_exact(8);
    Ok(words
        .map(|word| u64::from_le_bytes(word.try_into().expect("eight bytes")))
        .collect())
}
