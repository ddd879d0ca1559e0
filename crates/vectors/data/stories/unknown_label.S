% A jump to a label that isn't there.
{module,u}.
{exports,[{f,0}]}.
{attributes,[]}.
{labels,4}.
{function,f,0,2}.
{label,1}.
{func_info,{atom,u},{atom,f},0}.
{label,2}.
{jump,{f,3}}.
