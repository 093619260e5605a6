module dadofennel.example/dadofennel

go 1.19
