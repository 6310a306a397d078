# All keys of tmux at once; some cut at each byte; lone escapes; a sequence that is none; no keypad.
\e[3;2~\e[1;2F\e[1;2H\e[2;2~\e[1;2D\e[6;2~\e[5;2~\e[1;2C\0177\e[Z\eOD\eOB\eOC\eOA\e[3~\e[4~\eOP\e[21~\e[23~\e[24~\e[1;2P\e[1;2Q\e[1;2R\e[1;2S\e[15;2~\e[17;2~\e[18;2~\eOQ\e[19;2~\e[20;2~\e[21;2~\e[23;2~\e[24;2~\e[1;5P\e[1;5Q\e[1;5R\e[1;5S\e[15;5~\eOR\e[17;5~\e[18;5~\e[19;5~\e[20;5~\e[21;5~\e[23;5~\e[24;5~\e[1;6P\e[1;6Q\e[1;6R\eOS\e[1;6S\e[15;6~\e[17;6~\e[18;6~\e[19;6~\e[20;6~\e[21;6~\e[23;6~\e[24;6~\e[1;3P\e[15~\e[1;3Q\e[1;3R\e[1;3S\e[15;3~\e[17;3~\e[18;3~\e[19;3~\e[20;3~\e[21;3~\e[23;3~\e[17~\e[24;3~\e[1;4P\e[1;4Q\e[1;4R\e[18~\e[19~\e[20~\e[1~\e[2~\e[1;2B\e[6~\e[5~\e[1;2A.
s \e [ 3 ; 2 ~ \e [ 1 ; 2 H \e [ 1 ; 2 D \0177 \e [ Z \e O B \e O A \e [ 3 ~ \e [ 4 ~ \e O P \e [ 2 4 ~ \e [ 1 5 ~ \e [ 1 ~ \e [ 5 ~ .
e \e .
\e\e[9zx\e[.
k\e[3;2~\e[5~kn\e.
nq
