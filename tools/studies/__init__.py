"""Studies: many runs of one scenario, and two scenarios compared.

`apstry` and `apsdiff` at the top of the checkout are the launchers. They run the proved programs and read their reports.
They know no rule of the scheduler.
"""
