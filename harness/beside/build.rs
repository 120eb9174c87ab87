include!("../format_rs.rs");
