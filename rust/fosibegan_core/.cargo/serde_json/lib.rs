compile_error!("the feature `serde` needs the real serde_json: run cargo in another folder, with --manifest-path");
