# A line for each field; the second is refused twice.
Grace\0040Hoppers\0177\r
many\r
\r
79123\0177\0177\01771\r
New\0040York\0040City\0040USA\r
secret\0025other\r
y
