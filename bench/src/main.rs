//! The contenders that need no crate from elsewhere: bench NAME,NAME... [PASSES [LIVES]].
mod ravencrumb;
mod sorted;
mod twin;

#[cfg(feature = "lmdb")]
mod lmdb;

use bench::measure::{measured, run, sizes, Contender};

fn contender(name: &str) -> Option<Box<dyn Contender>> {
    Some(match name {
        "ravencrumb" => measured::<ravencrumb::Many>("ravencrumb"),
        "stepwise" => measured::<ravencrumb::Single>("stepwise"),
        "twin" => measured::<twin::Twin>("twin"),
        "sorted" => measured::<sorted::Sorted>("sorted"),
        #[cfg(feature = "lmdb")]
        "lmdb" => measured::<lmdb::Lmdb>("lmdb"),
        _ => return None,
    })
}

fn main() {
    let mut args = std::env::args().skip(1);
    let names = args.next().unwrap_or_default();
    let (passes, lives) = sizes(args);
    match names.split(',').map(contender).collect() {
        Some(contenders) => run(contenders, passes, lives),
        None => {
            eprintln!("bench: not all of these are contenders: {names:?}");
            std::process::exit(2);
        }
    }
}
