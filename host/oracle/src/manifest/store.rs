// Document 01 leaves `store` out; mod.rs only declares the module.
