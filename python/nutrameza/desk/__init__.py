"""The officer's desk: a policy drawn, tried and compared in a browser, and its report as one file.

The modules show what the library answers and judge nothing: `view` has a policy as plain data, `drawing` the hierarchy
in layers, `survey` the figures of nutrameza_survey, `trial` a scratch ledger, `compare` two policies, `page` all of
these as HTML, `report` the file for the record, `server` the address on this machine. docs/OFFICERS.md is for those who
sit at it."""
