//! Mounts the published files where they stand, so that not one byte of them is changed.

use pecos_sources::{module_line, published_or_stop, write_modules};

fn main() {
    let published = published_or_stop();
    let text = module_line("min_sum", &published.min_sum) + &module_line("relay", &published.relay);
    write_modules(&text);
}
