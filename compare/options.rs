//! The program's arguments.

pub struct Options {
    pub accepted: u64,
    pub damaged: u64,
    /// Adversarial pictures, which come after the lists.
    pub far: u64,
    /// Planes for their checksums and pixels, which come after those.
    pub planes: u64,
    /// Floats at random for the way back, which come last.
    pub floats: u64,
    pub seed: u64,
    pub threads: u64,
    /// Whether a picture on which the two sides differ is made smaller.
    pub shrink: bool,
    /// Where it is written.
    pub smallest: String,
    /// A program that converts a list, which alone is then looked at, on as many lists as there would be accepted pictures.
    pub program: Option<String>,
    /// Where pictures that meet the bounds of C-23 are written, which are then searched for, and nothing is compared.
    pub search: Option<String>,
    /// The depth and kind for which every float is tried, or all of them, and nothing else is looked at.
    pub every_float: Option<String>,
}

const USAGE: &str = "arguments: --accepted N, --damaged N, --far N, --planes N, --floats N, --seed S, --threads T, --smallest FILE, \
    --no-shrink, --program FILE, --search FILE, --every-float KIND";

impl Options {
    pub fn read(mut words: impl Iterator<Item = String>) -> Result<Options, String> {
        let cores = std::thread::available_parallelism().map_or(1, |n| n.get() as u64);
        let smallest = "target/compare/smallest".to_string();
        let mut options = Options {
            accepted: 100_000,
            damaged: 100_000,
            far: 100_000,
            planes: 100_000,
            floats: 30_000_000,
            seed: 20261115,
            threads: cores,
            shrink: true,
            smallest,
            program: None,
            search: None,
            every_float: None,
        };
        while let Some(word) = words.next() {
            let mut value = || words.next().ok_or(USAGE);
            let number = |text: String| text.parse::<u64>().map_err(|_| format!("not a number: {text}"));
            match word.as_str() {
                "--accepted" => options.accepted = number(value()?)?,
                "--damaged" => options.damaged = number(value()?)?,
                "--far" => options.far = number(value()?)?,
                "--planes" => options.planes = number(value()?)?,
                "--floats" => options.floats = number(value()?)?,
                "--seed" => options.seed = number(value()?)?,
                "--threads" => options.threads = number(value()?)?.max(1),
                "--smallest" => options.smallest = value()?,
                "--no-shrink" => options.shrink = false,
                "--program" => options.program = Some(value()?),
                "--search" => options.search = Some(value()?),
                "--every-float" => options.every_float = Some(value()?),
                _ => return Err(USAGE.into()),
            }
        }
        Ok(options)
    }
}
