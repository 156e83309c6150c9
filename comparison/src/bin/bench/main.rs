//! Times the library against the reference and against a plain copy, on the same bytes in turns of one run, and prints the ratios of their
//! times: loading, the reads, writing, opening and closing, and some of these of a container in two files.

mod pairs;
mod reads;
mod rounds;
mod writes;

fn main() {
    rounds::heading();
    reads::all();
    writes::all();
    pairs::all();
}
