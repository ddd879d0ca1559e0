{module, m01_rec}.  %% version = 0

{exports, [{even,1},
           {odd,1}]}.

{attributes, []}.

{labels, 37}.


{function, even, 1, 22}.
  {label,21}.
    {line,[{location,"m01_rec.erl",29}]}.
    {func_info,{atom,m01_rec},{atom,even},1}.
  {label,22}.
    {test,is_eq_exact,{f,23},[{x,0},{integer,0}]}.
    {move,{atom,true},{x,0}}.
    return.
  {label,23}.
    {line,[{location,"m01_rec.erl",30}]}.
    {gc_bif,'-',{f,0},1,[{x,0},{integer,1}],{x,0}}.
    {call_only,1,{f,25}}. % odd/1


{function, odd, 1, 25}.
  {label,24}.
    {line,[{location,"m01_rec.erl",31}]}.
    {func_info,{atom,m01_rec},{atom,odd},1}.
  {label,25}.
    {test,is_eq_exact,{f,26},[{x,0},{integer,0}]}.
    {move,{atom,false},{x,0}}.
    return.
  {label,26}.
    {line,[{location,"m01_rec.erl",32}]}.
    {gc_bif,'-',{f,0},1,[{x,0},{integer,1}],{x,0}}.
    {call_only,1,{f,22}}. % even/1
