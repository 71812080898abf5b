//! What the documents say of the tree is so.

use house::Tree;

fn main() {
    if !house::run(&Tree::read()) {
        std::process::exit(1);
    }
}
