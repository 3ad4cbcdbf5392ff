compile_error!("the feature `proptest` needs the real crate: run cargo in another folder, with --manifest-path");
