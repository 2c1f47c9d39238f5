access(all) contract Pair {
    init(code: String) {
        self.account.contracts.add(name: "Half", code: code.utf8)
    }
}
