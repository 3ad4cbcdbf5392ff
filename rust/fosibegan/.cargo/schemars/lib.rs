compile_error!("the feature `schemars` needs the real crate: run cargo in another folder, with --manifest-path");
