//! Colour where the terminal has it: not if the output is no terminal, and not if NO_COLOR is set.

use std::env;
use std::io::IsTerminal;

#[derive(Clone, Copy)]
pub enum Colour {
    Bold,
    Dim,
    Red,
    Green,
}

#[derive(Clone, Copy)]
pub struct Paint {
    on: bool,
}

impl Paint {
    fn allowed() -> bool {
        let no_colour = env::var_os("NO_COLOR").is_some_and(|value| !value.is_empty());
        let dumb = env::var_os("TERM").is_some_and(|term| term == "dumb");
        !no_colour && !dumb
    }

    pub fn for_output() -> Paint {
        Paint { on: Paint::allowed() && std::io::stdout().is_terminal() }
    }

    pub fn for_errors() -> Paint {
        Paint { on: Paint::allowed() && std::io::stderr().is_terminal() }
    }

    pub fn with(self, colour: Colour, text: &str) -> String {
        let code = match colour {
            Colour::Bold => "1",
            Colour::Dim => "2",
            Colour::Red => "1;31",
            Colour::Green => "1;32",
        };
        if self.on { format!("\x1b[{code}m{text}\x1b[0m") } else { text.to_string() }
    }
}
