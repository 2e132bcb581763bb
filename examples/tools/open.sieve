if header "a" [] {}
