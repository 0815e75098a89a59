User::Pkg::bb User::Home rx
