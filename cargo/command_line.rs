//! The values of clap's matches, as the program asks for them: they are there for the life of the process.

use clap::ArgMatches;

pub trait Values {
    /// The value of an argument, which of an option without one is `true` or `false`.
    fn get_str(&'static self, id: &str) -> Option<&'static str>;

    /// The values of an argument that may have more than one.
    fn get_strs(&'static self, id: &str) -> Option<&'static [&'static str]>;
}

impl Values for ArgMatches {
    fn get_str(&'static self, id: &str) -> Option<&'static str> {
        if let Ok(flag) = self.try_get_one::<bool>(id) {
            return flag.map(|is| if *is { "true" } else { "false" });
        }
        self.try_get_one::<String>(id).ok()?.map(String::as_str)
    }

    fn get_strs(&'static self, id: &str) -> Option<&'static [&'static str]> {
        let values = self.try_get_many::<String>(id).ok()??;
        Some(values.map(String::as_str).collect::<Vec<_>>().leak())
    }
}
