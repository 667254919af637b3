//! `desk/answer --port`: the port's archive answers the command language.
#[allow(dead_code)]
mod language;
mod port_side;

fn main() -> std::io::Result<()> {
    let Ok(mut side) = port_side::PortSide::new() else {
        return Err(std::io::Error::other("an empty pool of code page 1252 was refused"));
    };
    language::serve(|command| side.answer(command))
}
