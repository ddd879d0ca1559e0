-module(loops).
-export([sum/1, fib/1, tak/3, frames/2, cleared/1, caught/2, own/1, lists/2, choice2/1, choice16/1, choice256/1, remote/2, remote4/2,
         ping/1, named/1, spawns/1, crowd/3, selective/2, sleepers/1, idle/1]).
-export([pong/0, pong_named/0, echo/1, sleeper/2, waiter/0]).

%% A loop over registers.
sum(N) -> sum(N, 0).
sum(0, S) -> S;
sum(N, S) -> sum(N - 1, S + N).

fib(N) when N < 2 -> N;
fib(N) -> fib(N - 1) + fib(N - 2).

tak(X, Y, Z) when Y >= X -> Z;
tak(X, Y, Z) -> tak(tak(X - 1, Y, Z), tak(Y - 1, Z, X), tak(Z - 1, X, Y)).

%% Times calls with frames, Depth deep.
frames(0, _) -> ok;
frames(Times, Depth) -> Depth = deep(Depth), frames(Times - 1, Depth).
deep(0) -> 0;
deep(N) -> 1 + deep(N - 1).

%% Frames whose y registers are cleared as they are made.
cleared(0) -> ok;
cleared(N) -> {_, _, _} = three(N), cleared(N - 1).
three(N) -> A = same(N), B = same(A), C = same(B), {A, B, C}.
same(X) -> X.

%% An exception that is caught Depth frames up, Times times;
%% and below it the own pid, N times.
caught(0, _) -> ok;
caught(Times, Depth) -> gone = (catch thrown(Depth)), caught(Times - 1, Depth).
thrown(0) -> throw(gone);
thrown(N) -> 1 + thrown(N - 1).

own(N) -> own(N, none).
own(0, _) -> ok;
own(N, _) -> own(N - 1, self()).

%% A list of that length is built and turned, Times times.
lists(0, _) -> ok;
lists(Times, Length) -> turn(build(Length, []), []), lists(Times - 1, Length).
build(0, L) -> L;
build(N, L) -> build(N - 1, [N | L]).
turn([], L) -> L;
turn([H | T], L) -> turn(T, [H | L]).

%% Choices among 2, 16 and 256 constants.
choice2(0) -> ok;
choice2(N) -> two(N rem 2), choice2(N - 1).
two(0) -> a;
two(1) -> b.

choice16(0) -> ok;
choice16(N) -> sixteen(N rem 16), choice16(N - 1).
sixteen(0) -> 0;
sixteen(1) -> 7;
sixteen(2) -> 14;
sixteen(3) -> 5;
sixteen(4) -> 12;
sixteen(5) -> 3;
sixteen(6) -> 10;
sixteen(7) -> 1;
sixteen(8) -> 8;
sixteen(9) -> 15;
sixteen(10) -> 6;
sixteen(11) -> 13;
sixteen(12) -> 4;
sixteen(13) -> 11;
sixteen(14) -> 2;
sixteen(15) -> 9.

choice256(0) -> ok;
choice256(N) -> many(N rem 256), choice256(N - 1).

many(0) -> 0;
many(1) -> 7;
many(2) -> 14;
many(3) -> 21;
many(4) -> 28;
many(5) -> 35;
many(6) -> 42;
many(7) -> 49;
many(8) -> 56;
many(9) -> 63;
many(10) -> 70;
many(11) -> 77;
many(12) -> 84;
many(13) -> 91;
many(14) -> 98;
many(15) -> 105;
many(16) -> 112;
many(17) -> 119;
many(18) -> 126;
many(19) -> 133;
many(20) -> 140;
many(21) -> 147;
many(22) -> 154;
many(23) -> 161;
many(24) -> 168;
many(25) -> 175;
many(26) -> 182;
many(27) -> 189;
many(28) -> 196;
many(29) -> 203;
many(30) -> 210;
many(31) -> 217;
many(32) -> 224;
many(33) -> 231;
many(34) -> 238;
many(35) -> 245;
many(36) -> 252;
many(37) -> 3;
many(38) -> 10;
many(39) -> 17;
many(40) -> 24;
many(41) -> 31;
many(42) -> 38;
many(43) -> 45;
many(44) -> 52;
many(45) -> 59;
many(46) -> 66;
many(47) -> 73;
many(48) -> 80;
many(49) -> 87;
many(50) -> 94;
many(51) -> 101;
many(52) -> 108;
many(53) -> 115;
many(54) -> 122;
many(55) -> 129;
many(56) -> 136;
many(57) -> 143;
many(58) -> 150;
many(59) -> 157;
many(60) -> 164;
many(61) -> 171;
many(62) -> 178;
many(63) -> 185;
many(64) -> 192;
many(65) -> 199;
many(66) -> 206;
many(67) -> 213;
many(68) -> 220;
many(69) -> 227;
many(70) -> 234;
many(71) -> 241;
many(72) -> 248;
many(73) -> 255;
many(74) -> 6;
many(75) -> 13;
many(76) -> 20;
many(77) -> 27;
many(78) -> 34;
many(79) -> 41;
many(80) -> 48;
many(81) -> 55;
many(82) -> 62;
many(83) -> 69;
many(84) -> 76;
many(85) -> 83;
many(86) -> 90;
many(87) -> 97;
many(88) -> 104;
many(89) -> 111;
many(90) -> 118;
many(91) -> 125;
many(92) -> 132;
many(93) -> 139;
many(94) -> 146;
many(95) -> 153;
many(96) -> 160;
many(97) -> 167;
many(98) -> 174;
many(99) -> 181;
many(100) -> 188;
many(101) -> 195;
many(102) -> 202;
many(103) -> 209;
many(104) -> 216;
many(105) -> 223;
many(106) -> 230;
many(107) -> 237;
many(108) -> 244;
many(109) -> 251;
many(110) -> 2;
many(111) -> 9;
many(112) -> 16;
many(113) -> 23;
many(114) -> 30;
many(115) -> 37;
many(116) -> 44;
many(117) -> 51;
many(118) -> 58;
many(119) -> 65;
many(120) -> 72;
many(121) -> 79;
many(122) -> 86;
many(123) -> 93;
many(124) -> 100;
many(125) -> 107;
many(126) -> 114;
many(127) -> 121;
many(128) -> 128;
many(129) -> 135;
many(130) -> 142;
many(131) -> 149;
many(132) -> 156;
many(133) -> 163;
many(134) -> 170;
many(135) -> 177;
many(136) -> 184;
many(137) -> 191;
many(138) -> 198;
many(139) -> 205;
many(140) -> 212;
many(141) -> 219;
many(142) -> 226;
many(143) -> 233;
many(144) -> 240;
many(145) -> 247;
many(146) -> 254;
many(147) -> 5;
many(148) -> 12;
many(149) -> 19;
many(150) -> 26;
many(151) -> 33;
many(152) -> 40;
many(153) -> 47;
many(154) -> 54;
many(155) -> 61;
many(156) -> 68;
many(157) -> 75;
many(158) -> 82;
many(159) -> 89;
many(160) -> 96;
many(161) -> 103;
many(162) -> 110;
many(163) -> 117;
many(164) -> 124;
many(165) -> 131;
many(166) -> 138;
many(167) -> 145;
many(168) -> 152;
many(169) -> 159;
many(170) -> 166;
many(171) -> 173;
many(172) -> 180;
many(173) -> 187;
many(174) -> 194;
many(175) -> 201;
many(176) -> 208;
many(177) -> 215;
many(178) -> 222;
many(179) -> 229;
many(180) -> 236;
many(181) -> 243;
many(182) -> 250;
many(183) -> 1;
many(184) -> 8;
many(185) -> 15;
many(186) -> 22;
many(187) -> 29;
many(188) -> 36;
many(189) -> 43;
many(190) -> 50;
many(191) -> 57;
many(192) -> 64;
many(193) -> 71;
many(194) -> 78;
many(195) -> 85;
many(196) -> 92;
many(197) -> 99;
many(198) -> 106;
many(199) -> 113;
many(200) -> 120;
many(201) -> 127;
many(202) -> 134;
many(203) -> 141;
many(204) -> 148;
many(205) -> 155;
many(206) -> 162;
many(207) -> 169;
many(208) -> 176;
many(209) -> 183;
many(210) -> 190;
many(211) -> 197;
many(212) -> 204;
many(213) -> 211;
many(214) -> 218;
many(215) -> 225;
many(216) -> 232;
many(217) -> 239;
many(218) -> 246;
many(219) -> 253;
many(220) -> 4;
many(221) -> 11;
many(222) -> 18;
many(223) -> 25;
many(224) -> 32;
many(225) -> 39;
many(226) -> 46;
many(227) -> 53;
many(228) -> 60;
many(229) -> 67;
many(230) -> 74;
many(231) -> 81;
many(232) -> 88;
many(233) -> 95;
many(234) -> 102;
many(235) -> 109;
many(236) -> 116;
many(237) -> 123;
many(238) -> 130;
many(239) -> 137;
many(240) -> 144;
many(241) -> 151;
many(242) -> 158;
many(243) -> 165;
many(244) -> 172;
many(245) -> 179;
many(246) -> 186;
many(247) -> 193;
many(248) -> 200;
many(249) -> 207;
many(250) -> 214;
many(251) -> 221;
many(252) -> 228;
many(253) -> 235;
many(254) -> 242;
many(255) -> 249.

%% Calls of the module far, which has 10 or 5,000 exports.
remote(0, _) -> ok;
remote(N, X) -> remote(N - 1, far:last(X)).
remote4(0, _) -> ok;
remote4(N, X) -> remote4(N - 1, far:last(far:last(far:last(far:last(X))))).

%% Messages there and back, by pid and by name.
ping(N) -> there(spawn(loops, pong, []), N).
there(_, 0) -> ok;
there(Pid, N) -> Pid ! self(), receive pong -> there(Pid, N - 1) end.
pong() -> receive Pid -> Pid ! pong, pong() end.

named(N) ->
    register(ping, self()),
    register(pong, spawn(loops, pong_named, [])),
    by_name(N).
by_name(0) -> ok;
by_name(N) -> pong ! ping, receive pong -> by_name(N - 1) end.
pong_named() -> receive ping -> ping ! pong, pong_named() end.

%% Processes that start, answer and end.
spawns(0) -> ok;
spawns(N) -> spawn(loops, echo, [self()]), receive done -> spawns(N - 1) end.
echo(To) -> To ! done.

%% A function of this module among Count processes that wait.
crowd(Count, Function, N) -> idle(Count), apply(loops, Function, [N]).
idle(0) -> ok;
idle(N) -> spawn(loops, waiter, []), idle(N - 1).
waiter() -> receive stop -> ok end.

%% The last of Count messages is taken first, Times times.
selective(Count, Times) -> fill(Count), pick(Times, Count).
fill(0) -> ok;
fill(N) -> self() ! {n, N}, fill(N - 1).
pick(0, _) -> ok;
pick(Times, N) -> self() ! {found, Times}, receive {found, Times} -> pick(Times - 1, N) end.

%% N processes that sleep for different times, until the last has woken.
sleepers(N) -> start(N, self()), woken(N).
start(0, _) -> ok;
start(N, To) -> spawn(loops, sleeper, [To, 1 + N rem 1000]), start(N - 1, To).
woken(0) -> ok;
woken(N) -> receive woken -> woken(N - 1) end.
sleeper(To, T) -> receive after T -> To ! woken end.
