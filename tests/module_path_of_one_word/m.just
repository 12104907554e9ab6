mod z
