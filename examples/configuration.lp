% A configuration: a computer of one part of each kind, that fit together and are strong enough. What it costs is less
% important (priority 1) than the noise (priority 2). There is one best choice.
kind(board;processor;memory;power;disc).

% part(Name, Kind, Price, Noise)
part(board_s,   board,     80, 0).   part(board_l,   board,     140, 0).
part(cpu_s,     processor, 120, 2).  part(cpu_l,     processor, 310, 4).
part(ram_16,    memory,    45, 0).   part(ram_32,    memory,     85, 0).   part(ram_64,  memory, 170, 0).
part(power_350, power,     50, 3).   part(power_550, power,      95, 1).
part(ssd,       disc,      90, 0).   part(hdd,       disc,       55, 4).

% The watts that a part draws, and that a supply gives.
draws(cpu_s,95). draws(cpu_l,180). draws(board_s,60). draws(board_l,85). draws(ram_16,10). draws(ram_32,15).
draws(ram_64,25). draws(ssd,5). draws(hdd,20).
gives(power_350,350). gives(power_550,550).

{ chosen(P) : part(P,K,_,_) } = 1 :- kind(K).

% Neither the large processor nor the large memory fits the small board.
:- chosen(cpu_l), chosen(board_s).
:- chosen(ram_64), chosen(board_s).

% What is drawn is at most three quarters of what is given.
:- chosen(S), gives(S,G), #sum { W,P : chosen(P), draws(P,W) } > 3*G/4.

% The work asks for the large memory, or for the next one with the large processor.
enough :- chosen(ram_64).
enough :- chosen(ram_32), chosen(cpu_l).
:- not enough.

#minimize { N@2,P : chosen(P), part(P,_,_,N) }.
#minimize { C@1,P : chosen(P), part(P,_,C,_) }.

#show chosen/1.
