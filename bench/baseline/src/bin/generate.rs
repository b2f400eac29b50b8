//! Prints a policy text:
//! `generate seed SEED` a small or damaged one, the same for the same seed;
//! `generate large TEMPLATE N PROPERTIES` one with long searches: 4N pairs, 32 grants, and PROPERTIES of one template;
//! `generate crowded TEMPLATE N PROPERTIES` the same, but its grants let all contexts but one move to each other;
//! `generate arcade` that of an arcade of safes.

use baseline::generate;
use std::error::Error;
use std::io::{stdout, Write};

fn main() -> Result<(), Box<dyn Error>> {
    let arguments: Vec<String> = std::env::args().skip(1).collect();
    let arguments: Vec<&str> = arguments.iter().map(String::as_str).collect();
    let text = match arguments[..] {
        ["seed", seed] => generate::text(seed.parse()?),
        [kind @ ("large" | "crowded"), template, n, properties] if generate::large::TEMPLATES.contains(&template) => {
            let (n, properties) = (n.parse()?, properties.parse()?);
            if !(32..=256).contains(&n) || !(1..=64).contains(&properties) {
                return Err("N is 32 to 256, PROPERTIES 1 to 64".into());
            }
            generate::large::text(template, n, properties, kind == "crowded").into_bytes()
        }
        ["arcade"] => generate::arcade::text().into_bytes(),
        _ => return Err("usage: generate seed SEED | generate large|crowded TEMPLATE N PROPERTIES | generate arcade".into()),
    };
    stdout().write_all(&text)?;
    Ok(())
}
