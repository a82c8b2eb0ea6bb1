//! `tree`: what is live, in the lines of the call that lists it.

use crate::arguments::Arguments;
use crate::console::print_lines;
use crate::failure::Failure;
use crate::files::open;

pub fn tree(arguments: &Arguments) -> Result<(), Failure> {
    let (image, areas) = open(arguments)?;
    let mut text = vec![0; nffs::TREE_MOST];
    let length =
        nffs::tree(&image, &areas, &mut text).map_err(|refusal| arguments.refused(refusal))?;
    print_lines(&text[..length])
}
