//! The words of the command line.

use crate::output::Place;
use crate::points::Comma;
use crate::rim_file::MAX_AREA_FACTOR;
use crate::view::View;
use std::path::PathBuf;

pub const HELP: &str = "\
usage: ./rim make [--area N] [--bend N] [--decimal-comma] [-o FILE] POINTS
       ./rim show [--list] [-o FILE] RIM
       ./rim draw [--from VIEW] [-o FILE] RIM
       ./rim stl|obj [-o FILE] RIM
       ./rim price [-o FILE] RIM
       ./rim judge [-o FILE] RIM PATCH

  make   a rim file from a list of points
  show   a rim file as text: header, records, vertices, the outcome in words
  draw   the patch as a picture (SVG)
  stl    the patch as a mesh (ASCII STL), obj as OBJ; both in millimetres
  price  the patch's total, triangles and area in square millimetres, in three lines, without the patch;
         or none, or refused K
  judge  a patch that another program made: accepted EXCESS, which is how far its total is above the
         least one, or refused K

POINTS is text with a line for each point of the rim, in order around the gap; the last point joins
the first. A line is x y z in millimetres, or x y for a level point, which has the height of the point
before it. Numbers are separated by blanks or tabs, by commas, or by semicolons; # starts a comment.
After a point, normal nx ny nz tells how the surface stands outside the edge to the next point (for
the last point, to the first), which the patch is to leave smoothly: three whole numbers from -1000 to
1000, best of length 1000, or, where one has a decimal mark, a direction of any length. It looks to
the side from which the rim runs counterclockwise. 0 0 0, or no normal, is no surface. With a normal
in it the list makes a file of edition 2, without one a file of edition 1.
RIM is a rim file of either edition. PATCH is text in the form that ./patch prints: patch N T TOTAL,
then a line for each of the T triangles, which begins with its three vertices; the rest of it is not
read. The lines of triangles, and the vertices in each, may be in any order; # starts a comment.
For any one of POINTS, RIM and PATCH, - is standard input.

  --area N          area factor, 0 to 16 (default 1)
  --bend N          bend factor, 0 to 65535 (default 1)
  --decimal-comma   1,5 is one and a half, not 1 and 5; then no comma separates
  --list            only the list of points that make takes back, with the normals
  --from VIEW       top, front, side, corner, or a direction X,Y,Z to look from (default: top; for a
                    flat rim the one of top, front and side where it looks largest, for a rim on one
                    line the one where it looks longest)
  -o FILE           write to FILE, which is replaced only by a complete one (default: standard output)

Status: 0 done; 1 the list, the rim or the patch is refused, or there is no patch to mill; 2 it could
not run, or PATCH cannot be read as a patch of RIM.
";

/// The commands in words.
const COMMANDS: &str = "make, show, draw, stl, obj, price or judge";

/// What to write. A picture without a view is seen from where the rim shows best.
#[derive(Clone, Debug, PartialEq)]
pub enum Command {
    Make { area: u16, bend: u16, comma: Comma },
    Show,
    List,
    Draw(Option<View>),
    Stl,
    Obj,
    Price,
    Judge { patch: Place },
}

#[derive(Clone, Debug, PartialEq)]
pub enum Request {
    Help,
    Run { command: Command, input: Place, output: Place },
}

/// The options that a command takes, with their defaults, and the patch to judge.
struct Options {
    area: u16,
    bend: u16,
    comma: Comma,
    list: bool,
    view: Option<View>,
    output: Place,
    patch: Place,
}

fn place(word: String) -> Place {
    if word == "-" {
        Place::Standard
    } else {
        Place::File(PathBuf::from(word))
    }
}

fn factor(option: &str, word: &str, highest: u16) -> Result<u16, String> {
    match word.parse() {
        Ok(factor) if factor <= highest => Ok(factor),
        _ => Err(format!("{option} takes a whole number from 0 to {highest}, not '{word}'")),
    }
}

impl Options {
    const DEFAULT: Options = Options {
        area: 1,
        bend: 1,
        comma: Comma::Separator,
        list: false,
        view: None,
        output: Place::Standard,
        patch: Place::Standard,
    };

    /// Takes an option, and its value from the words that follow.
    fn take(
        &mut self,
        command: &str,
        option: &str,
        words: &mut dyn Iterator<Item = String>,
    ) -> Result<(), String> {
        let mut value = || words.next().ok_or(format!("{option} needs a value after it"));
        match (command, option) {
            (_, "-o") => self.output = place(value()?),
            ("make", "--area") => self.area = factor(option, &value()?, MAX_AREA_FACTOR)?,
            ("make", "--bend") => self.bend = factor(option, &value()?, u16::MAX)?,
            ("make", "--decimal-comma") => self.comma = Comma::DecimalMark,
            ("show", "--list") => self.list = true,
            ("draw", "--from") => self.view = Some(View::named(&value()?)?),
            _ => return Err(format!("{command} has no option {option} (./rim --help)")),
        }
        Ok(())
    }

    /// Takes the words that are files, and gives the first, which is POINTS or RIM.
    fn take_files(&mut self, command: &str, words: Vec<String>) -> Result<Place, String> {
        let count = words.len();
        let files: Vec<Place> = words.into_iter().map(place).collect();
        match (command, &files[..]) {
            ("judge", [Place::Standard, Place::Standard]) => {
                Err("judge takes standard input for RIM or for PATCH, not for both".into())
            }
            ("judge", [rim, patch]) => {
                self.patch = patch.clone();
                Ok(rim.clone())
            }
            ("judge", _) => Err(format!("judge takes two files, RIM and PATCH; {count} are given")),
            (_, [file]) => Ok(file.clone()),
            _ => {
                Err(format!("{command} takes one file, or - for standard input; {count} are given"))
            }
        }
    }

    fn command(&self, command: &str) -> Result<Command, String> {
        match command {
            "make" => Ok(Command::Make { area: self.area, bend: self.bend, comma: self.comma }),
            "show" if self.list => Ok(Command::List),
            "show" => Ok(Command::Show),
            "draw" => Ok(Command::Draw(self.view)),
            "stl" => Ok(Command::Stl),
            "obj" => Ok(Command::Obj),
            "price" => Ok(Command::Price),
            "judge" => Ok(Command::Judge { patch: self.patch.clone() }),
            _ => Err(format!("there is no command '{command}': {COMMANDS}")),
        }
    }
}

/// The request of the words after the program's name.
pub fn parse(words: Vec<String>) -> Result<Request, String> {
    if words.iter().any(|word| word == "--help" || word == "-h") {
        return Ok(Request::Help);
    }
    let mut words = words.into_iter();
    let name = words.next().ok_or(format!("a command is expected: {COMMANDS} (./rim --help)"))?;
    Options::DEFAULT.command(&name)?;
    let mut options = Options::DEFAULT;
    let mut files = Vec::new();
    while let Some(word) = words.next() {
        if word.starts_with('-') && word != "-" {
            options.take(&name, &word, &mut words)?;
        } else {
            files.push(word);
        }
    }
    let input = options.take_files(&name, files)?;
    Ok(Request::Run { command: options.command(&name)?, input, output: options.output })
}
