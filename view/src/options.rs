//! The arguments of the program.
use crate::ask::Ask;
use crate::attribute::Spec;
use std::ffi::OsString;

pub const HELP: &str = "\
view [--svg] [--signed ATTRIBUTES] [--attribute SPEC]... [--ask ASK]... < LINES
view [--svg] --file FILE [--attribute SPEC]... [--ask ASK]...

Draws a store: its cells by address, its keys by pairs of attributes, its leaves
by depth, its pages with their fill, and where an insert is refused with 6 next.
The store is the one that lines of `stock` leave, in memory as `stock` has it,
or that of a saved file, in 4,096 words and 4,096 pages. Text on standard
output, or SVG with --svg.

--signed 0,2     marks attributes 0 and 2 of every shape as signed, as far as it
                 has them: with width 10, values run from -512 to 511. Values in
                 `put`, `cut` and `list` may then have a minus sign, which
                 `stock` does not take. A file has its own marks.
--attribute SPEC names an attribute; given once for each, in order.
                 NAME                 a name of up to 24 characters
                 NAME:from=N          the store's least value stands for N
                 NAME:from=N,to=M     the values N to M, spread over the width:
                                      r above N is stored as floor(r*2^w/count)
--ask ASK        marks the pages that a query reads. ASK is NAME=VALUE or
                 NAME=LOW..HIGH, with an attribute's name or number; of several,
                 all are to hold.

A bad line or a refused call is told on standard error, and passed over.
The status is 1 if there is no store to draw, or if the file, a name or a value
is refused, 2 for other arguments.
";

/// What is to be drawn, and how.
#[derive(Debug, Default, PartialEq, Eq)]
pub struct Options {
    pub svg: bool,
    /// a saved file in the place of lines
    pub file: Option<OsString>,
    /// the marks of signed attributes
    pub signs: Option<u32>,
    pub attributes: Vec<Spec>,
    pub asks: Vec<Ask>,
}

impl Options {
    /// What the arguments say. None for arguments of another form.
    pub fn parse(arguments: &[OsString]) -> Option<Options> {
        let mut options = Options::default();
        let mut rest = arguments.iter();
        while let Some(argument) = rest.next() {
            let mut text = || rest.next()?.to_str();
            match argument.to_str()? {
                "--svg" if !options.svg => options.svg = true,
                "--signed" if options.signs.is_none() => options.signs = Some(signs(text()?)?),
                "--attribute" => options.attributes.push(Spec::parse(text()?)?),
                "--ask" => options.asks.push(Ask::parse(text()?)?),
                "--file" if options.file.is_none() => options.file = Some(rest.next()?.clone()),
                _ => return None,
            }
        }
        let marked_file = options.file.is_some() && options.signs.is_some();
        (!marked_file && distinct(&options.attributes)).then_some(options)
    }
}

/// Whether no two attributes have one name.
fn distinct(attributes: &[Spec]) -> bool {
    let twice =
        |(j, attribute): (usize, &Spec)| attributes[..j].iter().any(|other| other.name == attribute.name);
    !attributes.iter().enumerate().any(twice)
}

/// The marks of the attributes in a list: "0,2".
fn signs(list: &str) -> Option<u32> {
    let mut attributes =
        list.split(',').map(|item| ["0", "1", "2", "3"].iter().position(|&name| name == item));
    attributes.try_fold(0, |signs, attribute| Some(signs | 1 << attribute?))
}
