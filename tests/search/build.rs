//! Links the archive of the function `test_search`.

fn main() {
    tools::link("test_search", None);
}
