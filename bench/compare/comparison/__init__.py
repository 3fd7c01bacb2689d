"""The program beside others: what each answers, and what a line costs."""
