% What bench/schedulers.py and tests/stress.py run: a loop, also under many frames, two processes that send to each other, one to which
% others send, a member of a ring, and one that starts others.
{module,crew}.
{exports,[{deep,2},{loop,1},{member,2},{pair,1},{pong,1},{starter,1},{take,1},{sender,2}]}.
{attributes,[]}.
{labels,35}.

% loop(N) counts down from N.
{function,loop,1,2}.
{label,1}.
{func_info,{atom,crew},{atom,loop},1}.
{label,2}.
{test,is_eq_exact,{f,3},[{x,0},{integer,0}]}.
return.
{label,3}.
{gc_bif,'-',{f,0},1,[{x,0},{integer,1}],{x,0}}.
{call_only,1,{f,2}}.

% pair(N) starts pong, and sends it N messages, each after the answer to the one before. Then it sends `stop`.
{function,pair,1,5}.
{label,4}.
{func_info,{atom,crew},{atom,pair},1}.
{label,5}.
{allocate,2,1}.
{move,{x,0},{y,0}}.
{bif,self,{f,0},[],{x,2}}.
{put_list,{x,2},nil,{x,2}}.
{move,{atom,crew},{x,0}}.
{move,{atom,pong},{x,1}}.
{call_ext,3,{extfunc,erlang,spawn,3}}.
{move,{x,0},{y,1}}.
{label,6}.
{test,is_eq_exact,{f,7},[{y,0},{integer,0}]}.
{move,{y,1},{x,0}}.
{move,{atom,stop},{x,1}}.
send.
{deallocate,2}.
return.
{label,7}.
{move,{y,1},{x,0}}.
{move,{atom,ping},{x,1}}.
send.
{label,8}.
{loop_rec,{f,9},{x,0}}.
remove_message.
{gc_bif,'-',{f,0},0,[{y,0},{integer,1}],{y,0}}.
{jump,{f,6}}.
{label,9}.
{wait,{f,8}}.

% Answers each message, up to `stop`.
{function,pong,1,11}.
{label,10}.
{func_info,{atom,crew},{atom,pong},1}.
{label,11}.
{allocate,1,1}.
{move,{x,0},{y,0}}.
{label,12}.
{loop_rec,{f,14},{x,0}}.
remove_message.
{test,is_eq_exact,{f,13},[{x,0},{atom,stop}]}.
{deallocate,1}.
return.
{label,13}.
{move,{y,0},{x,0}}.
{move,{atom,pong},{x,1}}.
send.
{jump,{f,12}}.
{label,14}.
{wait,{f,12}}.

% take(N) takes N messages.
{function,take,1,16}.
{label,15}.
{func_info,{atom,crew},{atom,take},1}.
{label,16}.
{test,is_eq_exact,{f,17},[{x,0},{integer,0}]}.
return.
{label,17}.
{loop_rec,{f,18},{x,1}}.
remove_message.
{gc_bif,'-',{f,0},1,[{x,0},{integer,1}],{x,0}}.
{jump,{f,16}}.
{label,18}.
{wait,{f,17}}.

% sender(P, N) sends N messages to P.
{function,sender,2,20}.
{label,19}.
{func_info,{atom,crew},{atom,sender},2}.
{label,20}.
{test,is_eq_exact,{f,21},[{x,1},{integer,0}]}.
return.
{label,21}.
{allocate,2,2}.
{move,{x,0},{y,0}}.
{move,{x,1},{y,1}}.
{move,{atom,one},{x,1}}.
send.
{move,{y,0},{x,0}}.
{gc_bif,'-',{f,0},1,[{y,1},{integer,1}],{x,1}}.
{call_last,2,{f,20},2}.

% deep(M, N) counts down from N, M frames deep.
{function,deep,2,23}.
{label,22}.
{func_info,{atom,crew},{atom,deep},2}.
{label,23}.
{test,is_eq_exact,{f,24},[{x,0},{integer,0}]}.
{move,{x,1},{x,0}}.
{call_only,1,{f,2}}.
{label,24}.
{allocate,1,2}.
{move,{x,0},{y,0}}.
{gc_bif,'-',{f,0},2,[{x,0},{integer,1}],{x,0}}.
{call,2,{f,23}}.
{deallocate,1}.
return.

% member(P, N) takes N messages, and for each of them sends one to P, the next of the ring.
{function,member,2,26}.
{label,25}.
{func_info,{atom,crew},{atom,member},2}.
{label,26}.
{allocate,2,2}.
{move,{x,0},{y,0}}.
{move,{x,1},{y,1}}.
{label,27}.
{test,is_eq_exact,{f,28},[{y,1},{integer,0}]}.
{deallocate,2}.
return.
{label,28}.
{loop_rec,{f,29},{x,0}}.
remove_message.
{move,{y,0},{x,0}}.
{move,{atom,token},{x,1}}.
send.
{gc_bif,'-',{f,0},0,[{y,1},{integer,1}],{y,1}}.
{jump,{f,27}}.
{label,29}.
{wait,{f,28}}.

% starter(N) starts N processes that end at once.
{function,starter,1,31}.
{label,30}.
{func_info,{atom,crew},{atom,starter},1}.
{label,31}.
{allocate,1,1}.
{move,{x,0},{y,0}}.
{label,32}.
{test,is_eq_exact,{f,33},[{y,0},{integer,0}]}.
{deallocate,1}.
return.
{label,33}.
{move,{integer,0},{x,2}}.
{put_list,{x,2},nil,{x,2}}.
{move,{atom,crew},{x,0}}.
{move,{atom,loop},{x,1}}.
{call_ext,3,{extfunc,erlang,spawn,3}}.
{gc_bif,'-',{f,0},0,[{y,0},{integer,1}],{y,0}}.
{jump,{f,32}}.
