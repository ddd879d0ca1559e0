{module, m19_tail}.  %% version = 0

{exports, [{count,1}]}.

{attributes, []}.

{labels, 45}.


{function, count, 1, 2}.
  {label,1}.
    {line,[{location,"m19_tail.erl",12}]}.
    {func_info,{atom,m19_tail},{atom,count},1}.
  {label,2}.
    {test,is_eq_exact,{f,3},[{x,0},{integer,0}]}.
    {move,{atom,done},{x,0}}.
    return.
  {label,3}.
    {line,[{location,"m19_tail.erl",13}]}.
    {gc_bif,'-',{f,0},1,[{x,0},{integer,1}],{x,0}}.
    {call_only,1,{f,2}}. % count/1
