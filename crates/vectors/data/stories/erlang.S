{module,erlang}.
{exports,[]}.
{attributes,[]}.
{labels,1}.
