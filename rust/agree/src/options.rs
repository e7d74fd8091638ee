//! What is asked for on the command line.

pub const HELP: &str = "\
agree [rounds] [seed] [options]

Puts inputs to the proved library and to the reference, and fails at the first answer that differs,
if a number from 0 to 16 was not reached, or if no accepted call has a certain K, n or w. First come
the fixed cases: every edge of the format, the worked calls, no input, a megabyte. Then as many rounds
of small books, each with all that comes from an acceptable call over it, and full books.

  rounds           small books, 250 unless said otherwise
  seed             1 unless said otherwise
  --full N         N full books of each of the seven kinds, with 64 values and some calls each; 4
  --program PATH   puts calls through this program too: all fixed cases, and of the others
  --every K        every K-th; 100 unless said otherwise
  --by-way         also prints how often each number was reached by each way of making an input
  --help           prints this
";

pub struct Options {
    pub rounds: usize,
    pub seed: u64,
    pub full: usize,
    pub program: Option<String>,
    pub every: u64,
    pub by_way: bool,
    pub help: bool,
}

impl Options {
    pub fn read(mut words: impl Iterator<Item = String>) -> Result<Options, String> {
        let mut options = Options {
            rounds: 250,
            seed: 1,
            full: 4,
            program: None,
            every: 100,
            by_way: false,
            help: false,
        };
        let mut plain = Vec::new();
        while let Some(word) = words.next() {
            match word.as_str() {
                "--full" => options.full = number(words.next())? as usize,
                "--every" => options.every = number(words.next())?,
                "--program" => options.program = Some(words.next().ok_or("--program needs a path")?),
                "--by-way" => options.by_way = true,
                "--help" => options.help = true,
                _ => plain.push(number(Some(word))?),
            }
        }
        match plain[..] {
            [] => (),
            [rounds] => options.rounds = rounds as usize,
            [rounds, seed] => (options.rounds, options.seed) = (rounds as usize, seed),
            _ => return Err("rounds and a seed, and no more numbers".to_string()),
        }
        Ok(options)
    }
}

fn number(word: Option<String>) -> Result<u64, String> {
    let word = word.ok_or("a number is missing")?;
    word.parse().map_err(|_| format!("{word} is not a number; see --help"))
}
