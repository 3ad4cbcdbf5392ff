//! With the feature `schemars`: the JSON schema of a network of one family is that of a string with
//! a pattern, and the schema of [`IpNetwork`] is that of exactly one of the two (`oneOf`).

use crate::{IpNetwork, Ipv4Network, Ipv6Network};
use alloc::boxed::Box;
use alloc::string::{String, ToString as _};
use alloc::vec;
use schemars::JsonSchema;
use schemars::r#gen::SchemaGenerator;
use schemars::schema::{
    InstanceType, Metadata, Schema, SchemaObject, StringValidation, SubschemaValidation,
};

/// The canonical texts of IPv4 networks.
const V4: &str = concat!(
    "^((25[0-5]|2[0-4][0-9]|1[0-9]{2}|[1-9]?[0-9])[.]){3}",
    "(25[0-5]|2[0-4][0-9]|1[0-9]{2}|[1-9]?[0-9])/(3[0-2]|[12]?[0-9])$"
);
/// Texts that only an IPv6 network may have: of the address it says which signs it has.
const V6: &str = "^[0-9a-fA-F]*:[0-9a-fA-F:.]*/(12[0-8]|1[01][0-9]|[1-9]?[0-9])$";

/// The schema with the name of the type that it describes, for what makes types of schemas.
fn named(schema: SchemaObject, name: &str) -> Schema {
    let extensions = [("x-rust-type".to_string(), name.into())];
    Schema::Object(SchemaObject {
        extensions: extensions.into_iter().collect(),
        ..schema
    })
}

macro_rules! string {
    ($name:ident, $pattern:ident) => {
        impl JsonSchema for $name {
            fn schema_name() -> String {
                stringify!($name).to_string()
            }

            fn json_schema(_: &mut SchemaGenerator) -> Schema {
                let pattern = Some($pattern.to_string());
                let schema = SchemaObject {
                    instance_type: Some(InstanceType::String.into()),
                    string: Some(Box::new(StringValidation {
                        pattern,
                        ..Default::default()
                    })),
                    ..Default::default()
                };
                named(schema, concat!("ipnetwork::", stringify!($name)))
            }
        }
    };
}

string!(Ipv4Network, V4);
string!(Ipv6Network, V6);

/// One of the schemas that a network of either family may have.
fn titled(title: &str, schema: Schema) -> Schema {
    let metadata = Metadata {
        title: Some(title.to_string()),
        ..Default::default()
    };
    let schemas = SubschemaValidation {
        all_of: Some(vec![schema]),
        ..Default::default()
    };
    Schema::Object(SchemaObject {
        metadata: Some(Box::new(metadata)),
        subschemas: Some(Box::new(schemas)),
        ..Default::default()
    })
}

impl JsonSchema for IpNetwork {
    fn schema_name() -> String {
        "IpNetwork".to_string()
    }

    fn json_schema(generator: &mut SchemaGenerator) -> Schema {
        let either = vec![
            titled("v4", generator.subschema_for::<Ipv4Network>()),
            titled("v6", generator.subschema_for::<Ipv6Network>()),
        ];
        let schemas = SubschemaValidation {
            one_of: Some(either),
            ..Default::default()
        };
        let schema = SchemaObject {
            subschemas: Some(Box::new(schemas)),
            ..Default::default()
        };
        named(schema, "ipnetwork::IpNetwork")
    }
}
