compile_error!("the feature `serde` needs the real crate: run cargo in another folder, with --manifest-path");
