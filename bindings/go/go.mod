module fosibegan.example/ipnetwork

go 1.19
