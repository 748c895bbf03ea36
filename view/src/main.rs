//! The program `view`.
use mdeh_view::ask::{asked, refused};
use mdeh_view::options::{Options, HELP};
use mdeh_view::owned::{self, Owned};
use mdeh_view::picture::Picture;
use mdeh_view::session::Session;
use mdeh_view::{svg, text};
use std::ffi::{OsStr, OsString};
use std::io::{self, BufRead, Write};
use std::process::ExitCode;

/// Prints the drawing or the help; otherwise tells why there is none.
fn main() -> ExitCode {
    let arguments: Vec<OsString> = std::env::args_os().skip(1).collect();
    let drawn = match (&arguments[..], Options::parse(&arguments)) {
        ([help], _) if help == "--help" => Ok(HELP.to_owned()),
        (_, Some(options)) => view(&options),
        _ => {
            eprint!("{HELP}");
            return ExitCode::from(2);
        }
    };
    match drawn.and_then(|text| print(&text)) {
        Ok(()) => ExitCode::SUCCESS,
        // whoever reads has seen enough
        Err(error) if error.kind() == io::ErrorKind::BrokenPipe => ExitCode::SUCCESS,
        Err(error) => {
            eprintln!("view: {error}");
            ExitCode::FAILURE
        }
    }
}

/// The drawing that the options ask for.
fn view(options: &Options) -> io::Result<String> {
    let store = match &options.file {
        Some(path) => file(path)?,
        None => lines(options.signs.unwrap_or(0))?,
    };
    let mut picture = Picture::of(&store);
    picture.name(&options.attributes).map_err(io::Error::other)?;
    if !options.asks.is_empty() {
        let asked = asked(&picture, &options.asks, |range| owned::answer(&store, range));
        picture.asked = Some(asked.map_err(io::Error::other)?);
    }
    Ok(if options.svg { svg::draw(&picture) } else { text::draw(&picture) })
}

/// The store of a saved file.
fn file(path: &OsStr) -> io::Result<Owned> {
    let told = |reason: String| io::Error::other(format!("{}: {reason}", path.to_string_lossy()));
    let bytes = std::fs::read(path).map_err(|error| told(error.to_string()))?;
    owned::load(&bytes).map_err(|refusal| told(refused(&refusal)))
}

/// The store that the lines of standard input leave, with these marks of signed attributes.
fn lines(signs: u32) -> io::Result<Owned> {
    let mut session = Session::signed(signs);
    for (line, number) in io::stdin().lock().split(b'\n').zip(1u64..) {
        if let Err(fault) = session.take(&line?) {
            eprintln!("line {number}: {fault}");
        }
    }
    let none = "no accepted `shape` line, so there is no store to draw";
    session.store().ok_or_else(|| io::Error::other(none))
}

/// Writes all of a text to standard output.
fn print(text: &str) -> io::Result<()> {
    let mut out = io::stdout().lock();
    out.write_all(text.as_bytes())?;
    out.flush()
}
