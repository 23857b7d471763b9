// The operations of the crate `native`.
crate::calls::calls!("modechart_compile", "modechart_table_run", 97);
crate::calls::sheet_calls!("modechart_sheet_run", 97);
