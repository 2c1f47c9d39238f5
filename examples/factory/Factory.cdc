access(all) contract Factory {
    access(all) event Opened(name: String)

    access(all) fun codeOf(_ name: String): String {
        let head = "access(all) contract "
        let body = " { access(all) var count: Int access(all) fun add(_ n: Int) { self.count = self.count + n } init(count: Int) { self.count = count } }"
        return head.concat(name).concat(body)
    }

    access(all) fun open(name: String, count: Int) {
        self.account.contracts.add(name: name, code: self.codeOf(name).utf8, count)
        emit Opened(name: name)
    }
}
