// The operations of the crate `native` as it was at an earlier commit, whose states have ages.
crate::calls::calls!("before_modechart_compile", "before_modechart_table_run", 97);
crate::calls::sheet_calls!("before_modechart_sheet_run", 97);
