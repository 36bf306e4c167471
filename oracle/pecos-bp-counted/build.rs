//! Writes, into the build folder only, the published files with a counter at each branch.

use pecos_sources::marks::{Site, mark, sites_table};
use pecos_sources::{module_line, published_or_stop, read, stop, write_modules, write_out};

fn main() {
    let published = published_or_stop();
    let mut sites: Vec<Site> = Vec::new();
    let mut modules = String::new();
    for (name, path) in [("min_sum", &published.min_sum), ("relay", &published.relay)] {
        let file = format!("{name}.rs");
        let marked = mark(&file, &read(path), &mut sites)
            .unwrap_or_else(|why| stop(&format!("cannot mark {}: {why}", path.display())));
        let copy = write_out(&file, &marked);
        // The wrapping of operands and loops leaves brackets that a person would not write.
        modules += "#[allow(unused_assignments, unused_braces, unused_parens)]\n";
        modules += &module_line(name, &copy);
    }
    modules += &sites_table(&sites);
    write_modules(&modules);
}
