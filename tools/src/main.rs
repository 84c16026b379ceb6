//! The command line: `rim --help` says what it takes.

#![forbid(unsafe_code)]

use patch_box::Number;
use rim::arguments::{parse, Command, Request, HELP};
use rim::diagnosis::diagnose;
use rim::judge::{judge, Judgement};
use rim::output::{is_screen, read, reason, write, Place};
use rim::patch::{close, Patch};
use rim::points::{points, Comma};
use rim::price::price;
use rim::text::MAX_BYTES;
use rim::{list, mesh, picture, rim_file, show, Failure};
use std::io::Write;
use std::process::ExitCode;

fn input(place: &Place, longest: usize) -> Result<Vec<u8>, Failure> {
    read(place, longest as u64 + 1)
        .map_err(|error| Failure::CannotRun(format!("{}: {}", place.name(), reason(&error))))
}

fn rim_input(place: &Place) -> Result<Vec<u8>, Failure> {
    input(place, patch_box::MAX_FILE)
}

fn make(place: &Place, area: u16, bend: u16, comma: Comma) -> Result<Vec<u8>, Failure> {
    let refused = |why: String| Failure::Refused(format!("{}: {why}", place.name()));
    let list = input(place, MAX_BYTES)?;
    let file = rim_file::encode(&points(&list, comma).map_err(refused)?, area, bend);
    match patch_box::read(&file) {
        Ok(_) => Ok(file),
        Err(number) => Err(refused(show::refusal(number, &diagnose(&file)))),
    }
}

/// What the library makes of a rim file, or its refusal in one line.
fn taken<T>(place: &Place, call: fn(&[u8]) -> Result<T, Number>) -> Result<(Vec<u8>, T), Failure> {
    let file = rim_input(place)?;
    match call(&file) {
        Ok(answer) => Ok((file, answer)),
        Err(number) => {
            let why = show::refusal(number, &diagnose(&file));
            Err(Failure::Refused(format!("{}: {why}", place.name())))
        }
    }
}

fn closed(place: &Place) -> Result<Patch, Failure> {
    taken(place, close).map(|(_, patch)| patch)
}

/// The mesh of a patch that has triangles.
fn milled(place: &Place, write: fn(&Patch) -> String) -> Result<Vec<u8>, Failure> {
    let patch = closed(place)?;
    if let Some(why) = patch.none {
        return Err(Failure::Refused(format!("{}: {why}", place.name())));
    }
    Ok(write(&patch).into_bytes())
}

/// What a command writes, and how it ends once that is written: with a status, or with a line too.
type Answer = (Vec<u8>, Result<u8, Failure>);

/// A refusal is written too, and its reason with the name of what is refused is the line.
fn refused(number: Number, place: &Place, why: &str) -> Answer {
    let why = format!("{}: {why}", place.name());
    (format!("refused {}\n", number.code()).into_bytes(), Err(Failure::Refused(why)))
}

fn rim_refused(number: Number, place: &Place, file: &[u8]) -> Answer {
    refused(number, place, &show::refusal(number, &diagnose(file)))
}

fn priced(place: &Place) -> Result<Answer, Failure> {
    let file = rim_input(place)?;
    Ok(match price(&file) {
        Ok(quote) => {
            let text = quote.map_or("none\n".into(), |quote| quote.text());
            (text.into_bytes(), Ok(0))
        }
        Err(number) => rim_refused(number, place, &file),
    })
}

fn judged(rim: &Place, patch: &Place) -> Result<Answer, Failure> {
    let (file, text) = (rim_input(rim)?, input(patch, MAX_BYTES)?);
    let unreadable = |why: String| Failure::CannotRun(format!("{}: {why}", patch.name()));
    Ok(match judge(&file, &text).map_err(unreadable)? {
        Judgement::Accepted(excess) => (format!("accepted {excess}\n").into_bytes(), Ok(0)),
        Judgement::RimRefused(number) => rim_refused(number, rim, &file),
        Judgement::PatchRefused(number, why) => refused(number, patch, &why),
    })
}

fn put(place: &Place, bytes: &[u8]) -> Result<(), Failure> {
    let name = match place {
        Place::Standard => "standard output".into(),
        Place::File(_) => place.name(),
    };
    write(place, bytes).map_err(|error| Failure::CannotRun(format!("{name}: {}", reason(&error))))
}

fn answer(command: Command, from: &Place) -> Result<Answer, Failure> {
    match command {
        Command::Make { area, bend, comma } => Ok((make(from, area, bend, comma)?, Ok(0))),
        Command::Show => {
            let (text, taken) = show::show(&rim_input(from)?);
            Ok((text.into_bytes(), Ok(if taken { 0 } else { 1 })))
        }
        Command::List => {
            let (file, _) = taken(from, patch_box::read)?;
            Ok((list::list(&file).into_bytes(), Ok(0)))
        }
        Command::Draw(view) => Ok((picture::svg(&closed(from)?, view).into_bytes(), Ok(0))),
        Command::Stl => Ok((milled(from, mesh::stl)?, Ok(0))),
        Command::Obj => Ok((milled(from, mesh::obj)?, Ok(0))),
        Command::Price => priced(from),
        Command::Judge { patch } => judged(from, &patch),
    }
}

fn run() -> Result<u8, Failure> {
    let words = std::env::args_os().skip(1);
    let words = words.map(|word| {
        word.into_string().map_err(|word| Failure::CannotRun(format!("{word:?} is no UTF-8 text")))
    });
    let (command, from, to) = match parse(words.collect::<Result<_, _>>()?) {
        Err(why) => return Err(Failure::CannotRun(why)),
        Ok(Request::Help) => return put(&Place::Standard, HELP.as_bytes()).map(|()| 0),
        Ok(Request::Run { command, input, output }) => (command, input, output),
    };
    if matches!(command, Command::Make { .. }) && is_screen(&to) {
        return Err(Failure::CannotRun(
            "a rim file is no text for a screen: use -o FILE or > FILE".into(),
        ));
    }
    let (bytes, end) = answer(command, &from)?;
    put(&to, &bytes)?;
    end
}

fn main() -> ExitCode {
    match run() {
        Ok(status) => ExitCode::from(status),
        Err(failure) => {
            // Control characters of a file's name stay on the one line.
            let line: String =
                failure.line().chars().map(|c| if c.is_control() { '?' } else { c }).collect();
            let _ = writeln!(std::io::stderr(), "rim: {line}");
            ExitCode::from(failure.status())
        }
    }
}
